"""Measures snapshots of a kept store, beside clients that read.

Puts many keys of 100 bytes, asks for a snapshot, and tells how long it took, keys and MB a second, and how much memory the server
had before it and at the most during it. Then three spells of reads of those keys by four connections, sixteen requests together:
without a snapshot, beside snapshots one after another, and without again; in each the requests a second, and the slowest of the
answers to a connection of its own that asks one request after another. Then three such spells of reads by one connection, one after
another. Then the server is stopped, and started from what it wrote: how long the stop and the start took, and keys a second.

All answers have to be right, each snapshot told whole, the next start has to have what the stop wrote, and what was done has to be
one run. The figures are measurements, and none of them is judged.
"""
from __future__ import annotations

import statistics
import threading
import time
from dataclasses import dataclass, field
from pathlib import Path

import kept
from load import Asker
from server import MIB, Server
from trial import Findings, Result

NAME = "snapshots"
PROMISES = "Snapshots beside readers are whole, and the next start has all that was kept; measured."
QUICK = False


@dataclass(frozen=True)
class Size:
    """How many keys are kept, how long each spell of reads takes, and by how many workers the store is served."""

    keys: int
    spell_seconds: float
    workers: int


FULL = Size(keys=400_000, spell_seconds=6.0, workers=2)
SHORT = Size(keys=20_000, spell_seconds=1.0, workers=2)

LONGEST_SECONDS = 600


@dataclass(frozen=True)
class Reads:
    """How clients read: so many connections, and requests of each together."""

    connections: int
    together: int


LOADS = (Reads(4, 16), Reads(1, 1))
SPELLS = {"without": False, "beside snapshots": True, "without again": False}


class Watcher(threading.Thread):
    """A client that asks one request after another, and knows how long each answer took."""

    def __init__(self, server: Server):
        super().__init__()
        self.server, self.millis, self.is_over = server, [], False

    def run(self) -> None:
        with self.server.client() as client:
            while not self.is_over:
                begun = time.monotonic()
                client.ask("GET", "/buckets/watched/keys/k")
                self.millis.append((time.monotonic() - begun) * 1000)


class Snapshooter(threading.Thread):
    """Asks for snapshots, one after another."""

    def __init__(self, server: Server):
        super().__init__()
        self.server, self.told, self.is_over = server, [], False

    def run(self) -> None:
        while not self.is_over and self.server.is_running:
            self.told.append(self.server.snapshot(LONGEST_SECONDS))


@dataclass
class Measuring:
    """A kept store, and who measures it."""

    found: Findings
    folder: Path
    server: Server
    asker: Asker
    size: Size
    rates: dict[str, float] = field(default_factory=dict)

    def ask(self, method: str, seconds: float, reads: Reads) -> float:
        how = {"connections": reads.connections, "together": reads.together, "keys": self.size.keys}
        return self.asker.ask("store", self.server.port, method, seconds, **how).a_second

    def first_snapshot(self) -> int:
        """Tells of a snapshot alone, and gives how many records it has."""
        self.server.forget_peak_memory()
        before, busy = self.server.memory_bytes(), self.server.processor_seconds()
        line = self.server.snapshot(LONGEST_SECONDS)
        busy = self.server.processor_seconds() - busy
        if not self.found.hold(kept.is_whole_snapshot(line), f"a snapshot: {line}"):
            return -1
        count, seconds = int(line.split()[1]), max(1, int(line.split()[3])) / 1000
        megabytes = sum(path.stat().st_size for path in self.folder.glob("*.records")) / 1e6
        a_second = f"{count / seconds:.0f} keys and {megabytes / seconds:.1f} MB a second"
        self.found.say(f"a snapshot of {count} records, {megabytes:.1f} MB: {seconds:.3f} s, {busy:.2f} of processors, {a_second}")
        peak = self.server.peak_memory_bytes()
        self.found.say(f"memory: {before / MIB:.1f} MB before it, {peak / MIB:.1f} MB at the most during it")
        return count

    def spell(self, name: str, is_beside_snapshots: bool, reads: Reads) -> None:
        watcher, snapshooter = Watcher(self.server), Snapshooter(self.server)
        watcher.start()
        if is_beside_snapshots:
            snapshooter.start()
        try:
            rate = self.ask("GET", self.size.spell_seconds, reads)
        finally:
            snapshooter.is_over = watcher.is_over = True
            watcher.join()
            if is_beside_snapshots:
                snapshooter.join()
        self.found.hold(all(map(kept.is_whole_snapshot, snapshooter.told)), f"snapshots beside reads: {snapshooter.told}")
        slow = f"slowest answer {max(watcher.millis):.1f} ms, middle {statistics.median(watcher.millis):.2f}"
        last = f"; {len(snapshooter.told)} snapshots, the last: {snapshooter.told[-1]}" if snapshooter.told else ""
        self.found.say(f"reads by {reads.connections} connections, {reads.together} together, {name}: {rate:.0f} a second; {slow}{last}")
        if reads == LOADS[0]:
            self.rates[name] = rate

    def stop(self) -> None:
        begun = time.monotonic()
        end = self.server.stop(LONGEST_SECONDS)
        self.found.hold(end is not None and end.is_in_order, f"the end: {end}")
        self.found.say(f"a stop: {time.monotonic() - begun:.2f} s, {end.printed[0] if end else ''}")


def run(program: Path, seed: int, size: Size) -> Result:
    found = Findings()
    with kept.folders(settings=kept.NO_SNAPSHOTS_BY_ITSELF) as folder:
        asker = Asker(folder.parent, seed)
        with Server.keep(program, folder, size.workers) as server:
            server.wait_until_it_answers()
            measuring = Measuring(found, folder, server, asker, size)
            found.say(f"puts a second: {measuring.ask('PUT', LONGEST_SECONDS, LOADS[0]):.0f}")
            count = measuring.first_snapshot()
            for reads in LOADS:
                for name, is_beside_snapshots in SPELLS.items():
                    measuring.spell(name, is_beside_snapshots, reads)
            measuring.stop()
        with Server.keep(program, folder, size.workers) as again:
            loaded = again.loaded or 0
            found.say(f"a start: {again.start_seconds:.2f} s, {loaded} records, {loaded / again.start_seconds:.0f} a second")
            found.hold(loaded == count, f"{loaded} records in place of {count}")
            again.stop_in_order()
    ratio = measuring.rates["beside snapshots"] / measuring.rates["without"]
    return found.result(f"{size.keys} keys: beside snapshots {ratio:.2f} of the reads without")
