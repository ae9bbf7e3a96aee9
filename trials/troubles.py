"""Hooks that fail: who runs a server is told on standard error, at most once a second and kind.

A pre-commit hook whose window is too short for any content is bound to one bucket, one whose answer has no meaning to another, and
a resolver whose answer has none to a third; a fourth has a hook that rejects what it sees, which is told nobody but the client. Two
clients write to each, 200 times in a row. Of each of the first three the first failure is told at once, and no more within a
second; one that comes later is told with how many were left out. Then a worker that had slept meets a failure, and the other one
meets more, soon one after another: the next line has to be a second behind that of the first.
"""
from __future__ import annotations

import random
import struct
import time
from dataclasses import dataclass
from pathlib import Path

from server import Client, Server
from trial import Findings, Result, Whole

NAME = "troubles"
PROMISES = "Of each kind of failing hook the first failure is told at once, then at most one a second."
QUICK = True
FULL = SHORT = Whole()

WRITES = 200
CLIENTS = 2
PRE_COMMIT, RESOLVER = 1, 2
PROPERTIES = {PRE_COMMIT: "precommit", RESOLVER: "resolver"}
EXIT = b"\x95" + bytes(7)
QUIET_SECONDS = 0.2
LINE_SECONDS = 10.0
DUE_SECONDS = 1.0  # at most one line of a kind a second: so long after one the next failure is told
LEAST_APART_SECONDS = 0.95  # a second, less what reading a line may take
ASLEEP_SECONDS = 1.4  # longer than a line keeps others back, and in the midst of one of the half seconds for which a worker sleeps
BETWEEN_SECONDS = 0.02
LEFT_OUT = " of its kind left out before"


def image(kind: int, window: int, answer: int) -> bytes:
    """A hook with an input window of so many bytes, which answers this."""
    head = b"RBPF\x01" + bytes([kind, 0, 0]) + struct.pack("<II", window, 0)
    return head + b"\xb7\0\0\0" + struct.pack("<I", answer) + EXIT


@dataclass(frozen=True)
class Trouble:
    """A bucket, the hook that is bound to it, what a client is answered that writes, and the line that is told, if any."""

    bucket: str
    kind: int
    window: int
    answer: int
    status: int
    line: str | None

    @property
    def hook(self) -> bytes:
        return image(self.kind, self.window, self.answer)

    def path(self, number: int) -> str:
        return f"/buckets/{self.bucket}/keys/k{number // 2}"

    def write(self, client: Client, number: int) -> int:
        """The status of a write at one of two vnodes, and behind the second, where siblings stand, a read if a resolver is bound."""
        status = client.ask("PUT", f"{self.path(number)}?at={number % 2}", b"v").status
        if self.kind == RESOLVER and number % 2 == 1:
            client.ask("GET", self.path(number))
        return status


TROUBLES = (
    Trouble("short", PRE_COMMIT, 40, 0, 413, "pre-commit hook failed: X1, what it is to see doesn't fit its input window (bucket short)"),
    Trouble("bad", PRE_COMMIT, 256, 3, 500, "pre-commit hook failed: X2, its answer has no meaning (bucket bad)"),
    Trouble("take%20nine", RESOLVER, 256, 256 + 9, 204, "resolver failed: X2, its answer has no meaning (bucket take%20nine)"),
    Trouble("no", PRE_COMMIT, 256, 256 + 1, 403, None),
)


def try_trouble(found: Findings, server: Server, clients: list[Client], trouble: Trouble) -> None:
    bucket, first = trouble.bucket, len(server.told)
    begun = time.monotonic()
    for number in range(WRITES):
        status = trouble.write(clients[number % CLIENTS], number)
        found.hold(status == trouble.status, f"a write to {bucket}: {status}")
    took = time.monotonic() - begun
    if trouble.line is not None:
        server.told.at(first, LINE_SECONDS)
    time.sleep(QUIET_SECONDS)
    lines = server.told.lines[first:]
    texts = [line.text for line in lines]
    if trouble.line is None:
        found.hold(not texts, f"nothing is told of {bucket}: {texts}")
        return
    apart = [later.moment - sooner.moment for sooner, later in zip(lines, lines[1:])]
    found.hold(texts[:1] == [trouble.line], f"the first of {bucket}: {texts[:1]}")
    found.hold(len(texts) <= took + 1, f"at most one a second of {bucket}: {len(texts)} in {took:.2f} s")
    found.hold(all(seconds >= LEAST_APART_SECONDS for seconds in apart), f"a second apart of {bucket}: {apart}")
    if not lines:
        return
    time.sleep(max(0.0, lines[-1].moment + DUE_SECONDS - time.monotonic()))
    behind = len(server.told)
    clients[0].ask("PUT", f"{trouble.path(0)}?at=0", b"v")
    clients[0].ask("GET", trouble.path(0))
    server.told.at(behind, LINE_SECONDS)
    last = server.told.texts(behind)
    is_counted = len(last) == 1 and last[0].startswith(trouble.line) and last[0].endswith(LEFT_OUT)
    found.hold(is_counted, f"then of {bucket}: {last}")
    found.say(f"{bucket}: {WRITES} writes in {took:.2f} s, {len(texts)} lines, then: {last}")


def try_apart(found: Findings, server: Server, clients: list[Client]) -> None:
    """Failures at a worker that had slept, and then at the other one, which doesn't, until a second one is told."""
    asleep, awake = clients
    trouble, first = TROUBLES[0], len(server.told)
    found.hold(asleep.ping(), "a ping is answered by the worker that sleeps then")
    time.sleep(ASLEEP_SECONDS)
    trouble.write(asleep, 0)
    until = time.monotonic() + LINE_SECONDS
    while len(server.told) < first + 2 and time.monotonic() < until:
        trouble.write(awake, 0)
        time.sleep(BETWEEN_SECONDS)
    lines = server.told.lines[first : first + 2]
    apart = [lines[1].moment - lines[0].moment] if len(lines) == 2 else []
    found.hold(apart and apart[0] >= LEAST_APART_SECONDS, f"a second behind a worker that had slept: {apart}")
    found.say(f"behind a worker that had slept the next line came after {apart} s")


def run(program: Path, seed: int, size: Whole) -> Result:
    found = Findings()
    troubles = random.Random(seed).sample(TROUBLES, len(TROUBLES))
    with Server.serve(program) as server:
        clients = [server.client() for _ in range(CLIENTS)]
        for number, trouble in enumerate(troubles):
            clients[0].must(204, "PUT", f"/hooks/h{number}", trouble.hook)
            binding = f'{{"props":{{"{PROPERTIES[trouble.kind]}":"h{number}"}}}}'.encode()
            clients[0].must(204, "PUT", f"/buckets/{trouble.bucket}/props", binding)
        for trouble in troubles:
            try_trouble(found, server, clients, trouble)
        try_apart(found, server, clients)
        told = len(server.told)
    return found.result(f"{told} lines of {WRITES * len(troubles)} failures and more")
