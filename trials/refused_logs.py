"""Writes of a kept store of which an allocation is refused, each in turn, by `c/refuse_log.c`.

A server of one worker forces its log before it answers. Of a write of each kind (a new key, one with a context, a delete, a long value,
some keys one behind another, a hook that is bound) one allocation of the worker's is refused, from the request to the log: the first,
then the second, until a write has no more. It has to be acknowledged, then or once a snapshot is whole, or answered by a fault, or its
connection ends. The server goes on. Then it is killed, and the next start has all that was acknowledged.
"""
from __future__ import annotations

import json
import random
from collections.abc import Callable, Iterable
from dataclasses import dataclass, field
from pathlib import Path

import kept
from refused_snapshots import NONE, Place, Refusals
from server import HungUp, Server, request
from trial import ALL, Findings, Result, tool
from writes import BUCKET, Known, Numbered, Write, counts_of, read_all, read_request, shown_in

NAME = "refused_logs"
PROMISES = "Of a write each allocation may be refused: it's told or kept, and what is acknowledged stays."
QUICK = True

TOGETHER = 6
LONG_BYTES = 20_000
HOOK, PROPERTIES = "/hooks/no", "/buckets/bound/props"
# No write has more allocations than this.
MOST_ALLOCATIONS = 200


@dataclass(frozen=True)
class Size:
    """How many allocations of each kind of write are refused, or ALL."""

    allocations: int


FULL, SHORT = Size(allocations=ALL), Size(allocations=6)


@dataclass
class Tally:
    """How many allocations were refused, and how many requests were then acknowledged, told to have failed, or not answered."""

    refused: int = 0
    acknowledged: int = 0
    told: int = 0
    unanswered: int = 0


@dataclass
class Store:
    """A server, and what is known of its keys and of the hook's binding, of which the last may not have been answered."""

    server: Server
    chance: random.Random
    known: dict[str, Known] = field(default_factory=dict)
    bound: list[bool] = field(default_factory=lambda: [False])
    tally: Tally = field(default_factory=Tally)
    faults: list[str] = field(default_factory=list)
    count: int = 0

    def __post_init__(self) -> None:
        self.client = Numbered(self.server.address)
        self.client.must(204, "PUT", HOOK, kept.REJECTS)

    def new_key(self) -> str:
        self.count += 1
        return f"k{self.count}"

    def written(self, key: str, value: bytes | None, context: str | None = None) -> tuple[Write, bytes]:
        """A write that is sent next, and its request."""
        one = Write(key, value, counts_of(context))
        self.known.setdefault(key, Known()).writes.append(one)
        return one, request("DELETE" if value is None else "PUT", f"{BUCKET}/{key}", value, context)

    def value(self, length: int = 100) -> bytes:
        return b"%d-" % self.chance.getrandbits(48) + self.chance.randbytes(length)

    # Kinds of writes: what is to be sent, once nothing is refused while that is prepared.

    def new(self) -> list[tuple[Write, bytes]]:
        return [self.written(self.new_key(), self.value())]

    def long(self) -> list[tuple[Write, bytes]]:
        return [self.written(self.new_key(), self.value(LONG_BYTES))]

    def together(self) -> list[tuple[Write, bytes]]:
        return [self.written(self.new_key(), self.value()) for _ in range(TOGETHER)]

    def blind(self) -> list[tuple[Write, bytes]]:
        return [self.written("sibling" if self.count % 2 else "other", self.value())]

    def with_context(self) -> list[tuple[Write, bytes]]:
        return [self.of_what_is_read("sibling", self.value())]

    def delete(self) -> list[tuple[Write, bytes]]:
        return [self.of_what_is_read("other", None)]

    def of_what_is_read(self, key: str, value: bytes | None) -> tuple[Write, bytes]:
        self.client.send(read_request(key))
        return self.written(key, value, shown_in(self.client.hear()).context)

    # What came of them

    def ask(self, sent: list[tuple[Write, bytes]]) -> None:
        """Sends writes, and hears what came of each."""
        try:
            self.client.send(b"".join(asked for _, asked in sent))
            for one, _ in sent:
                self.hear(one)
        except (HungUp, ConnectionResetError, BrokenPipeError):
            self.tally.unanswered += sum(one.tag is None for one, _ in sent)
            self.client.close()
            self.client = Numbered(self.server.address)

    def hear(self, one: Write) -> None:
        answer = self.client.hear()
        if answer.status == 204:
            one.tag = answer.tag
            self.tally.acknowledged += 1
        elif answer.status in (500, 503):
            self.tally.told += 1
        else:
            self.faults.append(f"a write: {answer.status} {answer.body[:80]!r}")

    def bind(self) -> None:
        """Binds the hook, or takes it away."""
        one = not self.bound[-1]
        self.bound.append(one)
        asked = b'{"props":{"precommit":%s}}' % (b'"no"' if one else b"null")
        try:
            status = self.client.ask("PUT", PROPERTIES, asked).status
        except (HungUp, ConnectionResetError, BrokenPipeError):
            self.tally.unanswered += 1
            self.client.close()
            self.client = Numbered(self.server.address)
            return
        self.tally.acknowledged += status == 204
        self.tally.told += status != 204
        if status == 204:
            self.bound = [one]


def try_kind(refusals: Refusals, store: Store, prepare: Callable[[], object], ask: Callable[..., None], numbers: Iterable[int]) -> None:
    """Writes of a kind, of which an allocation is refused, with one of these numbers, or until a write has no such."""
    for number in numbers:
        sent = prepare()
        refusals.refuse(Place(-1, number))
        ask(*sent)
        is_met = refusals.seen() > number
        refusals.refuse(NONE)
        store.tally.refused += is_met
        if not is_met:
            return
    store.faults += [f"{ask.__name__}: more than {number} allocations"] if number + 1 >= MOST_ALLOCATIONS else []


def numbers_of(size: Size, chance: random.Random) -> Iterable[int]:
    return range(MOST_ALLOCATIONS) if size.allocations == ALL else sorted(chance.sample(range(3 * size.allocations), size.allocations))


def judge(found: Findings, program: Path, folder: Path, store: Store) -> None:
    """Starts from what a kill left, and looks for what was acknowledged."""
    with Server.keep(program, folder, 1) as server:
        shown = read_all(server, store.known)
        with server.client() as client:
            is_bound = json.loads(client.must(200, "GET", PROPERTIES).body)["props"]["precommit"] == "no"
        server.kill()
    for key, known in store.known.items():
        for fault in known.faults(shown[key], lambda _: True):
            found.fail(f"{key}: {fault}")
    found.hold(is_bound in store.bound, f"the hook is bound: {is_bound} in place of {store.bound}")


def run(program: Path, seed: int, size: Size) -> Result:
    tool("cc")
    found, chance = Findings(), random.Random(seed)
    with kept.folders(settings=kept.NO_SNAPSHOTS_BY_ITSELF) as folder:
        refusals = Refusals(folder.parent, "refuse_log.c")
        with Server.keep(program, folder, 1, environment=refusals.environment) as server:
            store = Store(server, chance)
            for key in ("sibling", "other"):
                store.ask([store.written(key, store.value())])
            for kind in (store.new, store.blind, store.with_context, store.delete, store.long, store.together):
                try_kind(refusals, store, lambda kind=kind: [kind()], store.ask, numbers_of(size, chance))
            try_kind(refusals, store, lambda: [], store.bind, numbers_of(size, chance))
            store.ask(store.new())
            server.kill()
        store.client.close()
        lines = server.told.texts()
        snapshots = sum(map(kept.is_whole_snapshot, lines))
        found.say(f"{lines.count('E1')} lines E1, {snapshots} snapshots by itself")
        found.hold(snapshots or size.allocations != ALL, "a snapshot kept what the log couldn't be given")
        found.hold(not store.faults, f"answers: {store.faults[:5]}")
        judge(found, program, folder, store)
    tally = store.tally
    found.say(f"{tally.acknowledged} were acknowledged, {tally.told} told to have failed, {tally.unanswered} not answered")
    return found.result(f"{tally.refused} allocations refused")
