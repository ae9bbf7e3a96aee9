"""Clients that are stuck, and connections that are left: nobody else waits for them, and nothing of them stays.

Three clients of four workers are stuck at a time: each sends nothing, half a head or half a body, or reads nothing of its answers.
Meanwhile another client writes and reads, and its slowest answer is told. The stuck ones leave, and many connections are opened and
left in five ways, twice: what the server then has in open files and in memory is told before, between and behind. At last one
client of each kind that sends half of something stays until the server gives it up, which takes 60 to 65 seconds; the short form
leaves that out.
"""
from __future__ import annotations

import random
import time
from collections.abc import Callable
from dataclasses import dataclass
from pathlib import Path

from server import LAST_PING, MIB, Client, Server, request
from trial import Findings, Result

NAME = "strangers"
PROMISES = "Beside stuck clients answers come within a second; of left connections nothing stays."
QUICK = True


@dataclass(frozen=True)
class Size:
    """How many connections are left, twice, and whether half requests are waited for until they are given up."""

    connections: int
    waits_for_end: bool


FULL, SHORT = Size(connections=10_000, waits_for_end=True), Size(connections=1_000, waits_for_end=False)

WORKERS = 4
ROUNDS = 100
BIG_BYTES = 65_536
BIG_READS = 1_024
HALF_A_HEAD = b"PUT /buckets/b/keys/k HTTP/1.1\r\nHost: h\r\n"
HALF_A_BODY = request("PUT", "/buckets/b/keys/k", bytes(1_000))[:-500]
BIG = request("GET", "/buckets/b/keys/big")
SETTLE_SECONDS = 2.0
SLOWEST_SECONDS = 1.0
MOST_GROWTH_BYTES = MIB
LEAST_GIVEN_UP_SECONDS, MOST_GIVEN_UP_SECONDS = 60, 65


def reads_nothing(server: Server, questions: bytes = BIG * BIG_READS) -> Client:
    """A client that asks for much, 64 MB where nothing else is said, and reads none of it. Nor does it wait until that is taken."""
    client = server.client()
    client.send_without_waiting(questions)
    return client


STUCK: dict[str, Callable[[Server], Client]] = {
    "sends nothing": lambda server: server.client(),
    "sends half a head": lambda server: server.client(HALF_A_HEAD),
    "sends half a body": lambda server: server.client(HALF_A_BODY),
    "reads nothing": reads_nothing,
}


def put_big(server: Server) -> None:
    """A key whose value is as large as one may be."""
    with server.client() as client:
        client.must(204, "PUT", "/buckets/b/keys/big", bytes(BIG_BYTES))


def slowest_seconds(server: Server, rounds: int = ROUNDS) -> float:
    """The slowest of so many writes and reads."""
    worst = 0.0
    with server.client() as client:
        for number in range(rounds):
            for method, body, statuses in (("PUT", b"v", (204,)), ("GET", None, (200, 300))):
                begun = time.monotonic()
                answer = client.ask(method, f"/buckets/b/keys/k{number}", body)
                worst = max(worst, time.monotonic() - begun)
                if answer.status not in statuses:
                    raise ValueError(f"{method} of key k{number}: {answer.status}")
    return worst


def try_beside_stuck(found: Findings, server: Server) -> float:
    """Tries each kind of stuck client, and gives the slowest answer."""
    worst = 0.0
    for name, stuck in STUCK.items():
        clients = [stuck(server) for _ in range(WORKERS - 1)]
        time.sleep(0.3)
        slowest = slowest_seconds(server)
        found.say(f"three clients of which each {name}: the slowest of {2 * ROUNDS} answers to another took {slowest * 1000:.1f} ms")
        found.hold(slowest < SLOWEST_SECONDS, f"an answer within a second beside one that {name}")
        worst = max(worst, slowest)
        for client in clients:
            client.close()
    return worst


def leave(server: Server, way: int) -> None:
    """Opens a connection and leaves it: at once, by a reset, in a head, in a body, or after an answer."""
    client = server.client((b"", b"", HALF_A_HEAD, HALF_A_BODY, LAST_PING)[way])
    if way == 1:
        client.reset()
    if way == 4:
        client.read_to_end()
    client.close()


def try_left(found: Findings, server: Server, files: int, connections: int, chance: random.Random) -> None:
    """Leaves connections, twice."""
    memories = [server.memory_bytes()]
    for _ in range(2):
        for _ in range(connections):
            leave(server, chance.randrange(5))
        after = server.settled_files(files)
        memories.append(server.memory_bytes())
        before, now = (memory / MIB for memory in memories[-2:])
        found.say(f"{connections} connections left: open files {files} and {after}, memory {before:.1f} and {now:.1f} MB")
        found.hold(after == files, f"open files: {files} and then {after}")
    growth = memories[2] - memories[1]
    found.hold(growth < MOST_GROWTH_BYTES, f"the second time took {growth / MIB:.1f} MB")


def try_given_up(found: Findings, server: Server) -> None:
    begun = time.monotonic()
    clients = [stuck(server) for name, stuck in STUCK.items() if name.startswith("sends half")]
    for client in clients:
        client.read_to_end()
        client.close()
    took = time.monotonic() - begun
    what = f"{len(clients)} clients that send half of something were given up after {took:.0f} s"
    found.say(what)
    found.hold(LEAST_GIVEN_UP_SECONDS <= took < MOST_GIVEN_UP_SECONDS, what)


def run(program: Path, seed: int, size: Size) -> Result:
    found = Findings()
    with Server.serve(program, WORKERS) as server:
        put_big(server)
        slowest_seconds(server)
        time.sleep(SETTLE_SECONDS)
        files = server.open_files()
        worst = try_beside_stuck(found, server)
        try_left(found, server, files, size.connections, random.Random(seed))
        if size.waits_for_end:
            try_given_up(found, server)
    return found.result(f"slowest answer {worst * 1000:.1f} ms, {2 * size.connections} connections left")
