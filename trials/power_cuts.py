"""Builds the folders that power cuts leave, at places all over the trace of a kept store's calls, and starts the store from each.

In each life of a store one to three servers have its folder, one after another. Some clients write, alone and together under one key,
one binds a hook and takes it away, and snapshots are asked for, until the server is stopped or killed; some are killed in the midst of
their start. strace tells all calls by which they changed the folder and answered their clients. From them `traces.py` builds what a
power cut may leave at a place of the trace: what was forced, of the rest all, none, some, torn or spoilt; names that were forced, and
of the others any. The store has to start from each of these, and has to show what was acknowledged before that place: values, siblings,
and what is superseded, as contexts say, and the hook's binding. Under `sync always` that is each write; under the others each that was
acknowledged before a force of the log began that has ended, and under `sync everysec` nothing is left to force some seconds behind the
last write. Most lives begin with what a cut left of the life before, and in some a call of the system fails. Some values are pieces of
logs, whole records too. How many copies a key has stays in a folder. What the calls did in the model is compared with what stands in
the folder at the end. A folder from which a start goes wrong is kept in `trials/out`.
"""
from __future__ import annotations

import json
import random
import shutil
import tempfile
import threading
import time
from dataclasses import dataclass, field
from functools import partial
from pathlib import Path

import kept
from load import IN_MEMORY
from server import NoStart, Server
from traces import Connection, Cut, Trace, Traced, begin_and_kill, strace
from trial import Findings, Result, side_by_side
from unproved import OUT
from writes import REFUSALS, Known, Numbered, Shown, Write, Writer, read_all

NAME = "power_cuts"
PROMISES = "A power cut at any place loses no write that was acknowledged, and no start is refused."
QUICK = True


@dataclass(frozen=True)
class Size:
    """How many lives the store has, how many writes each client makes in one, and how many cuts are built of it."""

    lives: int
    writes: int
    cuts: int


FULL, SHORT = Size(lives=12, writes=150, cuts=900), Size(lives=1, writes=40, cuts=25)

SYNCS = (b"always", b"everysec", b"always", b"never")
COPIES = (1, 1, 3)
# So many lives from one empty folder to the next: a key's context stays short, so that no start folds it.
LIVES_OF_A_FOLDER = 4
SERVERS_OF_A_LIFE = (1, 1, 2, 3)
# How many starts are killed before they are over, before one that isn't, and behind how many lines of the trace: those of its changes.
KILLED_STARTS, CALLS_OF_A_START = 0.3, (85, 140)
WORKERS = (1, 2, 4)
WRITERS = 3
OWN_KEYS, SHARED_KEYS = 3, ["shared-1", "shared-2"]
STARTS_AT_ONCE = 4
FORCED_WITHIN_SECONDS = 5
# Of which lives calls fail, how, and which ones of each thread may: none of the start, which would be refused.
FAULTY_LIVES = 3
FAULTS = {"fdatasync:error=EIO": (3, 25), "fsync:error=EIO": (9, 20), "rename:error=EIO": (3, 8), "unlink:error=EIO": (1, 2)}
# In memory a force takes no time. In some lives it does, as on a device.
DELAYS_US = (300, 3_000)
HOOK = "/hooks/no"
PROPERTIES = "/buckets/bound/props"
BEFORE = -1


@dataclass
class Binding:
    """That a hook was bound to a bucket, or taken away, and by which request of which connection, if by any."""

    is_bound: bool
    connection: Connection | None = None
    number: int = 0


class Binder(threading.Thread):
    """Binds a hook and takes it away, one after the other."""

    def __init__(self, server: Server, number: int, bindings: list[Binding], count: int, chance: random.Random):
        super().__init__()
        self.server, self.server_number, self.bindings, self.count, self.chance = server, number, bindings, count, chance
        self.faults: list[str] = []

    def run(self) -> None:
        try:
            with Numbered(self.server.address, self.server_number) as client:
                for _ in range(self.count):
                    self.bind(client)
                    time.sleep(self.chance.uniform(0, 0.1))
        except OSError:  # the server has ended
            pass

    def bind(self, client: Numbered) -> None:
        client.next_number()
        client.ask("PUT", HOOK, kept.REJECTS)
        one = Binding(self.chance.random() < 0.5, client.name, client.next_number())
        self.bindings.append(one)
        asked = b'{"props":{"precommit":%s}}' % (b'"no"' if one.is_bound else b"null")
        status = client.ask("PUT", PROPERTIES, asked).status
        if status in REFUSALS:
            self.bindings.remove(one)
        elif status != 204:
            self.faults.append(f"a binding: {status}")


def is_bound(server: Server) -> bool:
    with server.client() as client:
        return json.loads(client.must(200, "GET", PROPERTIES).body)["props"]["precommit"] == "no"


@dataclass(frozen=True)
class How:
    """How a life goes: how the log is forced, how many copies a key has, which calls fail and which are slow, in strace's words."""

    sync: bytes
    copies: int
    fault: str = ""
    delay: str = ""

    @property
    def settings(self) -> bytes:
        return kept.NO_SNAPSHOTS_BY_ITSELF + b"sync %s\ncopies %d\n" % (self.sync, self.copies)

    def __str__(self) -> str:
        return ", ".join(word for word in (f"sync {self.sync.decode()}, copies {self.copies}", self.fault, self.delay) if word)


def how_of(number: int, copies: int, chance: random.Random) -> How:
    """How a life goes, by its number, in a folder with so many copies of a key."""
    sync = SYNCS[number % len(SYNCS)]
    if number % FAULTY_LIVES != FAULTY_LIVES - 1:
        return How(sync, copies, delay=f"fdatasync:delay_enter={chance.choice(DELAYS_US)}" if number % 2 else "")
    fault = chance.choice(sorted(FAULTS))
    return How(sync, copies, f"{fault}:when={chance.randint(*FAULTS[fault])}")


@dataclass
class Life:
    """One life of a store: how it goes, what is known of each key, which bindings there were, from its beginning on, and the trace."""

    how: How
    trace: Trace
    known: dict[str, Known] = field(default_factory=dict)
    bindings: list[Binding] = field(default_factory=lambda: [Binding(False)])

    def answered(self, one: Write | Binding) -> int:
        """Where in the trace something was answered."""
        return BEFORE if one.connection is None else self.trace.answered(one.connection, one.number)

    def has_to_be_there(self, one: Write, place: int) -> bool:
        """Whether a write was acknowledged before a cut, and, where not each write is forced, before a force that had ended."""
        told = self.answered(one)
        if self.how.sync == b"always" or told == BEFORE:
            return told <= place
        return any(told < force.began and force.ended <= place for force in self.trace.log_forces)

    def faults(self, shown: dict[str, Shown], is_bound_now: bool, place: int) -> list[str]:
        """What is wrong with what a store shows that began with what a cut left."""
        faults = []
        for key, known in self.known.items():
            wrong = known.faults(shown[key], lambda one: self.has_to_be_there(one, place))
            faults += [f"{key}: {fault}" for fault in wrong]
        if is_bound_now not in self.may_be_bound(place):
            faults.append(f"the hook is bound: {is_bound_now}")
        return faults

    def may_be_bound(self, place: int) -> set[bool]:
        """Of bindings, the last that was answered before a cut may be in force, and those that were asked for behind it."""
        last = max(number for number, one in enumerate(self.bindings) if self.answered(one) <= place)
        return {one.is_bound for one in self.bindings[last:]}


def live(found: Findings, program: Path, folder: Path, life: Life, size: Size, chance: random.Random) -> None:
    """One life of a store that begins with what a folder holds: one server after another."""
    (folder / kept.SETTINGS).write_bytes(life.how.settings)
    life.trace = Trace(folder)
    servers = chance.choice(SERVERS_OF_A_LIFE)
    for number in range(servers):
        told = folder.parent / f"calls-{folder.name}-{number}"
        if chance.random() < KILLED_STARTS:
            begin_and_kill(program, life.trace, told, chance.randint(*CALLS_OF_A_START))
            if not life.trace.device.is_settled:
                break
        traced = Traced(program, life.trace, chance.choice(WORKERS), told, life.how.delay if number else life.how.fault or life.how.delay)
        serve(found, traced, life, max(1, size.writes // servers), chance)
        told.unlink()
        if not life.trace.device.is_settled:
            break
    found.hold(not life.trace.unknown, f"calls that the model doesn't know: {sorted(life.trace.unknown)}")
    stands, seen = life.trace.device.whole(), kept.contents(folder)
    wrong = [name for name, data in stands.items() if data is not None and seen.get(name) != data]
    found.hold(not wrong, f"the model of the folder isn't what stands in it: {wrong}")


def serve(found: Findings, traced: Traced, life: Life, writes: int, chance: random.Random) -> None:
    """What clients do with one server, until it ends, and what strace told of that."""
    server, fault = traced.server, life.how.fault
    binder = Binder(server, traced.trace.servers, life.bindings, 2 + writes // 20, random.Random(chance.random()))
    clients = [*writers_of(traced, life, writes, chance), binder]
    with server:
        for thread in clients:
            thread.start()
        for line in snapshots(server, chance):
            found.hold(fault or kept.is_whole_snapshot(line), f"a snapshot: {line}")
        is_idle = end(found, server, clients, life.how, chance)
    faults = [fault for thread in clients for fault in thread.faults]
    found.hold(not faults, f"answers: {faults[:3]}")
    traced.read()
    unforced = traced.trace.unforced_writes() if is_idle and not fault else 0
    found.hold(not unforced, f"{life.how}: {unforced} writes aren't forced after {FORCED_WITHIN_SECONDS} seconds")


def writers_of(traced: Traced, life: Life, writes: int, chance: random.Random) -> list[Writer]:
    """Clients that write, with keys of their own and some that they share."""
    device, number = traced.trace.device, traced.trace.servers
    writers = []
    for place in range(WRITERS):
        keys = [*(f"w{place}-{own}" for own in range(OWN_KEYS)), *SHARED_KEYS]
        for key in keys:
            life.known.setdefault(key, Known())
        writer = Writer(traced.server, f"w{place}-{device.folder.name}.{number}", life.known, keys, writes, random.Random(chance.random()))
        writer.server_number = number
        writer.quoted = b"".join(file.first for name, file in device.first.items() if name.startswith("log-"))
        writers.append(writer)
    return writers


def snapshots(server: Server, chance: random.Random) -> list[str | None]:
    lines = []
    for _ in range(chance.randint(1, 3)):
        time.sleep(chance.uniform(0.1, 0.6))
        lines.append(server.snapshot())
    return lines


def end(found: Findings, server: Server, clients: list[threading.Thread], how: How, chance: random.Random) -> bool:
    """Has a server end: in the midst of writes or behind them, by a kill or a stop. Whether it was killed after some idle seconds."""
    way = chance.randrange(4)
    if way:
        for thread in clients:
            thread.join()
        if how.sync == b"everysec":
            time.sleep(FORCED_WITHIN_SECONDS)
    if way == 1:
        ended = server.stop()
        found.hold(ended is not None and (how.fault or ended.is_in_order), f"the end: {ended}")
    else:
        server.kill()
    for thread in clients:
        thread.join()
    return way > 1 and how.sync == b"everysec"


def start(program: Path, cut: Cut, folder: Path, keys: list[str]) -> tuple[dict[str, Shown], bool, list[str]]:
    """What a store shows that begins with what a cut left, and what it tells."""
    cut.lay(folder)
    with Server.keep(program, folder, 1) as server:
        shown = read_all(server, keys)
        bound = is_bound(server)
        server.kill()
        return shown, bound, server.told.texts()


@dataclass
class Cutting:
    """Where cuts of a life are laid, which of them were, and how many logs were torn."""

    found: Findings
    program: Path
    life: Life
    room: Path
    tried: set[int] = field(default_factory=set)
    torn: int = 0

    def try_cut(self, place: int, seed: float) -> None:
        """Starts from what a cut may leave at a place, and judges what is shown."""
        cut = self.life.trace.device.cut(place, random.Random(seed))
        mark = hash((place, *sorted(cut.files.items())))
        if mark in self.tried:
            return
        self.tried.add(mark)
        with tempfile.TemporaryDirectory(dir=self.room) as name:
            faults = self.faults_of(cut, Path(name, "cut"), place)
        if faults:
            aside = OUT / f"{self.life.trace.device.folder.name}-{place}-{int(seed * 10**9)}"
            shutil.rmtree(aside, ignore_errors=True)
            cut.lay(aside)
            what = f"{self.life.how}, cut behind call {place}, {'; '.join(cut.words) or 'all forced'}, kept in {aside}"
            self.found.fail(f"{what}: {'; '.join(faults[:5])}")

    def faults_of(self, cut: Cut, folder: Path, place: int) -> list[str]:
        try:
            shown, bound, told = start(self.program, cut, folder, list(self.life.known))
        except NoStart as refused:
            return [str(refused)]
        self.torn += any(line.startswith("log-") for line in told)
        return self.life.faults(shown, bound, place)


def some_places(places: list[int], count: int, chance: random.Random) -> list[int]:
    """So many places: each once before any comes again."""
    order: list[int] = []
    while places and len(order) < count:
        order += chance.sample(places, len(places))
    return order[:count]


def try_cuts(found: Findings, program: Path, life: Life, count: int, room: Path, chance: random.Random) -> int:
    """Cuts power at so many places of a life. Gives how many folders that were left differ."""
    places = life.trace.device.places()
    cutting = Cutting(found, program, life, room)
    side_by_side(STARTS_AT_ONCE, [partial(cutting.try_cut, place, chance.random()) for place in some_places(places, count, chance)])
    told = sum(one.tag is not None for known in life.known.values() for one in known.writes)
    figures = f"{told} writes, {len(places)} places, {len(cutting.tried)} folders, {cutting.torn} of them with a torn log"
    found.say(f"{life.trace.servers} servers, {life.how}: {figures}")
    return len(cutting.tried)


def begin_behind(program: Path, before: Life, folder: Path, how: How, chance: random.Random) -> Life:
    """A life that begins with what a cut leaves of another one, which is laid into a folder."""
    cut = before.trace.device.cut(chance.choice(before.trace.device.places()), chance)
    shown, bound, _ = start(program, cut, folder.parent / f"{folder.name}-aside", list(before.known))
    cut.lay(folder)
    life = Life(how, before.trace, bindings=[Binding(bound)])
    for key, one in shown.items():
        life.known[key] = Known()
        life.known[key].begin_with(one)
    return life


def run(program: Path, seed: int, size: Size) -> Result:
    strace()
    found, chance, folders, written = Findings(), random.Random(seed), 0, 0
    life: Life | None = None
    with tempfile.TemporaryDirectory(dir=IN_MEMORY, prefix="trial-") as name:
        for number in range(size.lives):
            folder, is_new = Path(name, f"life-{number}"), number % LIVES_OF_A_FOLDER == 0
            how = how_of(number, chance.choice(COPIES) if life is None or is_new else life.how.copies, chance)
            if life is None or is_new:
                folder.mkdir()
                life = Life(how, Trace(folder))
            else:
                life = begin_behind(program, life, folder, how, chance)
            live(found, program, folder, life, size, chance)
            folders += try_cuts(found, program, life, size.cuts, Path(name), chance)
            written += sum(one.connection is not None and one.tag is not None for known in life.known.values() for one in known.writes)
            if not found.is_fine:
                break
    return found.result(f"{size.lives} lives, {written} writes, {folders} folders")
