"""Kills a kept store beside clients that read, and looks at the next start for what they were shown.

Each round some clients write keys, alone and together, others read all of them, and the server is killed. Everything that was
acknowledged has to be there at the next start. Where the server has one worker everything that a reader was shown has to be there,
too: a worker's answers wait together until the log has what it did. Where it has more, a read may have shown what another worker was
just doing: of what was shown and isn't there it has to be so that nobody was told that it is written. So it is however the log is
forced, as the rounds take in turn, since a process that is killed leaves what it has written. In half of the rounds strace has each
write of the log come late, so that there is much to be shown that the log doesn't have.
"""
from __future__ import annotations

import os
import random
import threading
import time
from dataclasses import dataclass, field
from pathlib import Path

import kept
from server import AT_A_PORT_OF_THE_SYSTEM, Server
from traces import strace
from trial import Findings, Result
from writes import Known, Numbered, Shown, Writer, has, read_all, read_request, shown_in, wait_for

NAME = "reads"
PROMISES = "What one worker has shown to a reader is there after a kill; of several, what is acknowledged."
QUICK = True


@dataclass(frozen=True)
class Size:
    """How often the store is killed. Every second round it has one worker."""

    kills: int


FULL, SHORT = Size(kills=300), Size(kills=6)

SYNCS = (b"always", b"everysec", b"never")
SEVERAL = (2, 4)
WRITERS, READERS = 3, 3
OWN_KEYS, SHARED_KEYS = 2, ["shared-1", "shared-2"]
WITHOUT_END = 10**9
TOGETHER = 8
LATE_US = 10_000
MOST_WRITES_BEFORE = 60
# In a folder of its own, so that a key's context stays short.
KILLS_OF_A_FOLDER = 30


class Reader(threading.Thread):
    """Reads keys, some together, and knows what it was shown."""

    def __init__(self, server: Server, keys: list[str], chance: random.Random):
        super().__init__()
        self.server, self.keys, self.chance = server, keys, chance
        self.shown: list[tuple[str, Shown]] = []
        self.faults: list[str] = []

    def run(self) -> None:
        try:
            with Numbered(self.server.address) as client:
                while True:
                    self.read_some(client)
        except OSError:  # the server has ended
            pass
        except ValueError as error:
            self.faults.append(f"an answer that is none: {error}")

    def read_some(self, client: Numbered) -> None:
        some = self.chance.choices(self.keys, k=self.chance.randint(1, TOGETHER))
        client.send(b"".join(map(read_request, some)))
        for key in some:
            self.shown.append((key, shown_in(client.hear())))


@dataclass
class Tally:
    """How many writes were acknowledged, how many reads were answered, and how many siblings of these were of no use after a kill."""

    writes: int = 0
    reads: int = 0
    unkept: int = 0


@dataclass
class Store:
    """A folder, and what is known of each of its keys."""

    program: Path
    folder: Path
    chance: random.Random
    known: dict[str, Known] = field(default_factory=dict)
    tally: Tally = field(default_factory=Tally)

    def round(self, sync: bytes, workers: int) -> list[str]:
        """One start and a kill, and what the next start shows. Gives what is wrong."""
        (self.folder / kept.SETTINGS).write_bytes(kept.NO_SNAPSHOTS_BY_ITSELF + b"sync %s\n" % sync)
        with self.start(workers) as server:
            writers, readers = self.begin(server)
            wait_for(writers, self.chance.randrange(MOST_WRITES_BEFORE))
            time.sleep(self.chance.uniform(0, 0.3))
            server.kill()
            for thread in [*writers, *readers]:
                thread.join()
        faults = [fault for thread in [*writers, *readers] for fault in thread.faults]
        self.tally.writes += sum(writer.acknowledged for writer in writers)
        with Server.keep(self.program, self.folder, 1) as server:
            now = read_all(server, self.known)
            server.kill()
        return faults + self.faults(now, [one for reader in readers for one in reader.shown], workers == 1)

    def start(self, workers: int) -> Server:
        """A server, in half of the starts one whose writes of its log are late."""
        if self.chance.random() < 0.5:
            return Server.keep(self.program, self.folder, workers)
        logs = [int(path.name.partition("-")[2]) for path in self.folder.glob("log-*")]
        log = self.folder / f"log-{max(logs, default=-1) + 1}"
        late = ["-D", "-f", "-qq", "-o", os.devnull, "-P", str(log), "-e", "trace=write", "-e", f"inject=write:delay_enter={LATE_US}"]
        words = [*late, str(self.program), "keep", str(self.folder), AT_A_PORT_OF_THE_SYSTEM, str(workers)]
        return Server(Path(strace()), words)

    def begin(self, server: Server) -> tuple[list[Writer], list[Reader]]:
        writers, rewritten = [], set(SHARED_KEYS)
        for number in range(WRITERS):
            keys = [*(f"w{number}-{place}" for place in range(OWN_KEYS)), *SHARED_KEYS]
            rewritten.update(keys)
            for key in keys:
                self.known.setdefault(key, Known())
            chance = random.Random(self.chance.random())
            writers.append(Writer(server, f"w{number}-{self.chance.getrandbits(40)}", self.known, keys, WITHOUT_END, chance))
        readers = [Reader(server, sorted(rewritten), random.Random(self.chance.random())) for _ in range(READERS)]
        for thread in [*writers, *readers]:
            thread.start()
        return writers, readers

    def faults(self, now: dict[str, Shown], shown: list[tuple[str, Shown]], is_one_worker: bool) -> list[str]:
        """What is wrong with what stands there now, by what was acknowledged, and by what was shown."""
        faults = []
        self.tally.reads += len(shown)
        for key, known in self.known.items():
            faults += [f"{key}: {fault}" for fault in known.faults(now[key], lambda _: True)]
        for key, one in shown:
            faults += self.shown_faults(key, one, now[key], is_one_worker)
        for key, one in now.items():
            self.known[key].begin_with(one)
        return faults

    def shown_faults(self, key: str, one: Shown, now: Shown, is_one_worker: bool) -> list[str]:
        counts, faults = now.counts, []
        acknowledged = {write.tag for write in self.known[key].writes}
        for tag, value in one.siblings.items():
            if not has(counts, tag):
                self.tally.unkept += 1
                if is_one_worker or tag in acknowledged:
                    faults.append(f"{key}: {tag} was shown and is lost")
            elif now.siblings.get(tag, value) != value:
                faults.append(f"{key}: {tag} has another value")
        if is_one_worker and any(counts.get(vnode, 0) < count for vnode, count in one.counts.items()):
            faults.append(f"{key}: a context that was shown counts more")
        return faults


def run(program: Path, seed: int, size: Size) -> Result:
    strace()
    found, chance = Findings(), random.Random(seed)
    tally = Tally()
    for first in range(0, size.kills, KILLS_OF_A_FOLDER):
        with kept.folders() as folder:
            store = Store(program, folder, chance, tally=tally)
            for number in range(first, min(first + KILLS_OF_A_FOLDER, size.kills)):
                sync, workers = SYNCS[number % len(SYNCS)], 1 if number % 2 else chance.choice(SEVERAL)
                for fault in store.round(sync, workers)[:5]:
                    found.fail(f"kill {number}, sync {sync.decode()}, {workers} workers: {fault}")
    found.say(f"{tally.unkept} siblings that several workers showed weren't kept, and nobody was told that they were written")
    return found.result(f"{size.kills} kills, {tally.writes} writes, {tally.reads} reads")
