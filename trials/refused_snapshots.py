"""Snapshots and stops of a kept store of which an allocation is refused, each in turn, by `c/refuse_one.c`.

Each has to be told in a line, `not kept NAME: E1`, or to be whole: so it is where an allocation of a thread is refused, without
which vnodes are read one after another, or of a list of all keys of a vnode, which is then made key by key. A server that is
started from what stands there begins with the last whole snapshot. Where all allocations are tried at least one is told, and at
least one leaves the snapshot, or the stop, whole.
"""
from __future__ import annotations

import itertools
import random
import struct
from collections.abc import Iterable, Iterator
from dataclasses import dataclass
from pathlib import Path

import kept
from server import End, Server
from trial import ALL, Findings, Result, library

NAME = "refused_snapshots"
PROMISES = "A snapshot or stop of which an allocation is refused is whole or told, and then starts."
QUICK = True

KEYS = 2
VALUE = b"x" * 40
RECORDS = kept.VNODES * KEYS
# Of a snapshot each vnode has a thread, which has more allocations than this. At a stop one thread writes all, and is the first vnode's.
ONE_VNODE_ALLOCATIONS, ALL_VNODES_ALLOCATIONS = 15, 50


@dataclass(frozen=True)
class Size:
    """How many allocations of snapshots and of stops are refused, or ALL."""

    snapshots: int
    stops: int


FULL, SHORT = Size(snapshots=ALL, stops=ALL), Size(snapshots=6, stops=3)


@dataclass(frozen=True)
class Place:
    """Which allocation of the thread that writes a vnode's records."""

    vnode: int
    number: int


NONE = Place(-1, -1)


class Refusals:
    """What `c/refuse_one.c` is asked for, or another such library: which allocation of a thread that writes records it refuses."""

    def __init__(self, folder: Path, source: str = "refuse_one.c"):
        self.asked = folder / "asked"
        self.environment = {"LD_PRELOAD": str(library(source, folder / "refuse.so")), "REFUSALS": str(self.asked)}
        self.asked.touch()
        self.refuse(NONE)

    def refuse(self, place: Place) -> None:
        """The allocation with this number from now on is refused."""
        with open(self.asked, "r+b") as file:
            file.write(struct.pack("lll", place.vnode, place.number, 0))

    def seen(self) -> int:
        """How many allocations there were since then."""
        return struct.unpack("lll", self.asked.read_bytes())[2]

    def each(self) -> Iterator[Place]:
        """Each allocation in turn. Whoever takes one has it refused; where it isn't met, the next vnode's first follows."""
        for vnode in range(kept.VNODES):
            for number in itertools.count():
                yield Place(vnode, number)
                if self.seen() <= number:
                    break


def some(count: int, vnodes: int, allocations: int, chance: random.Random) -> Iterator[Place]:
    """Some of the first allocations of the threads of so many vnodes."""
    for _ in range(count):
        yield Place(chance.randrange(vnodes), chance.randrange(allocations))


@dataclass
class Tally:
    """How often an allocation was refused, and what came of that."""

    refused: int = 0
    whole: int = 0
    told: int = 0

    def note(self, is_whole: bool, is_told: bool) -> None:
        self.refused += 1
        self.whole += is_whole
        self.told += is_told

    def hold_each_came(self, found: Findings, what: str) -> None:
        found.say(f"{what}: of {self.refused} allocations that were refused {self.told} were told, and {self.whole} left it whole")
        found.hold(self.whole and self.told, f"{what}: at least one is told, and at least one leaves it whole")


def try_snapshots(found: Findings, program: Path, folder: Path, refusals: Refusals, places: Iterable[Place]) -> Tally:
    tally = Tally()
    with Server.keep(program, folder, environment=refusals.environment) as server:
        for key in range(KEYS):
            kept.put(server, key, VALUE)
        # From the first one on it is known which thread writes. Vnodes are read at the same time, so it is said of which one is refused.
        found.hold(kept.is_whole_snapshot(line := server.snapshot(), RECORDS), f"no allocation is refused: {line}")
        for place in places:
            refusals.refuse(place)
            line = server.snapshot()
            is_whole = kept.is_whole_snapshot(line, RECORDS)
            if refusals.seen() <= place.number:
                found.hold(is_whole, f"no allocation is refused: {line}")
                continue
            is_told = (line or "").startswith("not kept ") and line.endswith(": E1")
            tally.note(is_whole, is_told)
            loaded = kept.loaded_from(program, folder)
            found.hold((is_whole or is_told) and loaded == RECORDS, f"{place} of a snapshot: {line}, and then a start: {loaded}")
        refusals.refuse(NONE)
        end = server.stop()
        found.hold(end is not None and end.is_in_order, f"behind refused snapshots: {end}")
    return tally


def try_stops(found: Findings, program: Path, folder: Path, refusals: Refusals, places: Iterable[Place]) -> Tally:
    """The same of stops, from when one opens the first file on, each of a copy of the folder where a key more was put."""
    tally = Tally()
    for place in places:
        with kept.copied(folder) as copy:
            refusals.refuse(NONE)
            with Server.keep(program, copy, environment=refusals.environment) as server:
                kept.put(server, "more", VALUE)
                refusals.refuse(place)
                end = server.stop()
            loaded, is_met = kept.loaded_from(program, copy), refusals.seen() > place.number
        is_right = is_met and is_told_stop(end, loaded)
        is_whole = is_whole_stop(end, loaded)
        found.hold(is_whole or is_right, f"{place} of a stop: {end}, and then a start: {loaded}")
        if is_met:
            tally.note(is_whole, is_right)
    return tally


def is_whole_stop(end: End | None, loaded: int | None) -> bool:
    return end is not None and end.is_in_order and end.printed[0].startswith("kept ") and loaded == RECORDS + kept.VNODES


def is_told_stop(end: End | None, loaded: int | None) -> bool:
    """Each of three files is replaced for itself: those behind the one that isn't are replaced all the same."""
    is_told = end is not None and end.status == 1 and end.printed[0].startswith("not kept ") and end.printed[-1] == "audit ok"
    return is_told and loaded is not None and RECORDS <= loaded <= RECORDS + kept.VNODES


def run(program: Path, seed: int, size: Size) -> Result:
    found, chance = Findings(), random.Random(seed)
    with kept.folders(**{kept.SETTINGS: kept.THREE_COPIES}) as folder:
        refusals = Refusals(folder.parent)
        of_snapshots, of_stops = refusals.each(), refusals.each()
        if size.snapshots != ALL:
            of_snapshots = some(size.snapshots, kept.VNODES, ONE_VNODE_ALLOCATIONS, chance)
        if size.stops != ALL:
            of_stops = some(size.stops, 1, ALL_VNODES_ALLOCATIONS, chance)
        snapshots = try_snapshots(found, program, folder, refusals, of_snapshots)
        stops = try_stops(found, program, folder, refusals, of_stops)
    if size.snapshots == ALL:
        snapshots.hold_each_came(found, "snapshots")
    if size.stops == ALL:
        stops.hold_each_came(found, "stops")
    return found.result(f"{snapshots.refused} allocations of snapshots refused, {stops.refused} of stops")
