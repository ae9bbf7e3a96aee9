"""Has each call of a kept store on its logs fail in turn, by strace, from the start on.

A folder whose newest log a crash tore is started. Clients write, snapshots are asked for, and one call fails once: an opening, a write,
a cut, a forcing or a removal of a log, or a forcing of the folder's names. Where that is at the start, the start is refused in a line,
or it goes on. Else each write is acknowledged in the end, though it may be refused by 503 for a while, and the server goes on. Then it
is stopped or killed. The next start has all that was acknowledged, those writes too that the torn log had.
"""
from __future__ import annotations

import itertools
import random
import threading
import time
from dataclasses import dataclass
from pathlib import Path

import kept
from server import AT_A_PORT_OF_THE_SYSTEM, NoStart, Server, request
from traces import strace
from trial import ALL, Findings, Result

NAME = "failing_logs"
PROMISES = "Of the log each call of the system may fail: what is acknowledged stays, and writes go on."
QUICK = True

# Which calls fail on a log, how, and how often each is made in one session at the most.
ON_LOGS = {"openat": ("EACCES", 3), "write": ("ENOSPC", 8), "fdatasync": ("EIO", 8), "ftruncate": ("EIO", 1), "unlink": ("EIO", 1)}
# The same on the folder itself, whose names are forced.
ON_THE_FOLDER = {"openat": ("EMFILE", 4), "fsync": ("EIO", 4)}
LOGS = ("log-0", "log-1", "log-2")
TORN = b"DVR2 torn"
OLD_KEYS, KEYS_OF_A_CLIENT = 6, 8
CLIENTS = 2
PATIENCE_SECONDS = 60
AGAIN_SECONDS = 0.2
REFUSED_FOR_NOW = 503
INJECTED = "(INJECTED)"


@dataclass(frozen=True)
class Fault:
    """Of the calls of a kind on a file of the folder, or on itself, that one of each thread fails which has this number, from 1 on."""

    file: str
    call: str
    error: str
    number: int

    def words(self, program: Path, folder: Path, told: Path) -> list[str]:
        """How strace is told to start the server."""
        inject = f"inject={self.call}:error={self.error}:when={self.number}"
        words = ["-D", "-f", "-q", "-o", str(told), "-P", str(folder / self.file), "-e", f"trace={self.call}", "-e", inject]
        return [*words, str(program), "keep", str(folder), AT_A_PORT_OF_THE_SYSTEM, "1"]

    def __str__(self) -> str:
        return f"{self.call} {self.number} of {self.file or 'the folder'} fails by {self.error}"


def faults_of(file: str, calls: dict[str, tuple[str, int]]) -> list[Fault]:
    return [Fault(file, call, error, number + 1) for call, (error, most) in calls.items() for number in range(most)]


EACH = [*itertools.chain.from_iterable(faults_of(log, ON_LOGS) for log in LOGS), *faults_of("", ON_THE_FOLDER)]


@dataclass(frozen=True)
class Size:
    """How many calls fail, or ALL."""

    faults: int


FULL, SHORT = Size(faults=ALL), Size(faults=3)


def value_of(key: str) -> bytes:
    return b"value of " + key.encode()


def put_until_done(server: Server, keys: list[str], done: list[str], faults: list[str]) -> None:
    """Puts keys one after another, each until it is acknowledged."""
    with server.client(seconds=PATIENCE_SECONDS) as client:
        for key in keys:
            until = time.monotonic() + PATIENCE_SECONDS
            while (status := client.ask("PUT", f"/buckets/f/keys/{key}", value_of(key)).status) == REFUSED_FOR_NOW:
                if time.monotonic() > until:
                    break
                time.sleep(AGAIN_SECONDS)
            if status != 204:
                faults.append(f"a write of {key}: {status}")
                return
            done.append(key)


def write_all(server: Server, name: str, done: list[str]) -> list[str]:
    """Several clients put keys of this name. Gives what was wrong."""
    faults: list[str] = []
    shares = [[f"{name}-{client}-{number}" for number in range(KEYS_OF_A_CLIENT)] for client in range(CLIENTS)]

    def write(keys: list[str]) -> None:
        try:
            put_until_done(server, keys, done, faults)
        except OSError as error:
            faults.append(f"no answer: {error!r}")

    threads = [threading.Thread(target=write, args=(keys,)) for keys in shares]
    for thread in threads:
        thread.start()
    for thread in threads:
        thread.join()
    return faults


def torn_store(program: Path, folder: Path) -> list[str]:
    """Has a folder hold some writes in a log that was torn. Gives their keys."""
    keys = [f"old-{number}" for number in range(OLD_KEYS)]
    with Server.keep(program, folder, 1) as server:
        put_until_done(server, keys, [], [])
        server.kill()
    with open(folder / LOGS[0], "ab") as log:
        log.write(TORN)
    return keys


def lost(program: Path, folder: Path, keys: list[str]) -> list[str]:
    """Which keys a start from a folder lacks."""
    with Server.keep(program, folder, 1) as server:
        with server.client() as client:
            answers = client.ask_together([request("GET", f"/buckets/f/keys/{key}") for key in keys])
        server.kill()
    return [key for key, answer in zip(keys, answers) if answer.body != value_of(key)]


def session(found: Findings, server: Server, fault: Fault, is_stopped: bool) -> list[str]:
    """Writes and snapshots of a server of which a call fails. Gives which keys were acknowledged."""
    done: list[str] = []
    for name in ("first", "second", "third"):
        for wrong in write_all(server, name, done):
            found.fail(f"{fault}: {wrong}, told {server.told.texts()}")
        server.snapshot()
    found.hold(server.is_running, f"{fault}: the server has ended")
    if is_stopped:
        end = server.stop()
        is_told = end is not None and (end.is_in_order or end.printed[0].startswith("not kept "))
        found.hold(is_told, f"{fault}: the end: {end}")
    else:
        server.kill()
    return done


def try_fault(found: Findings, program: Path, folder: Path, old: list[str], fault: Fault, is_stopped: bool) -> bool:
    """A session in which a call fails, on a copy of a folder. Whether it failed."""
    with kept.copied(folder) as copy:
        told = copy.parent / "calls"
        done: list[str] = []
        try:
            with Server(Path(strace()), fault.words(program, copy, told)) as server:
                done = session(found, server, fault, is_stopped)
        except NoStart as refused:
            is_told = len(refused.printed) == 1 and refused.printed[0].startswith("refused ")
            found.hold(is_told, f"{fault}: {refused}")
        is_met = INJECTED in told.read_text(encoding="utf-8", errors="replace")
        lacking = lost(program, copy, [*old, *done])
        found.hold(not lacking, f"{fault}: {len(lacking)} of {len(old) + len(done)} are lost, as {lacking[:5]}; is met: {is_met}")
    return is_met


def run(program: Path, seed: int, size: Size) -> Result:
    strace()
    found, chance = Findings(), random.Random(seed)
    faults = EACH if size.faults == ALL else chance.sample(EACH, size.faults)
    met = set()
    with kept.folders(settings=kept.NO_SNAPSHOTS_BY_ITSELF) as folder:
        old = torn_store(program, folder)
        for fault in faults:
            if try_fault(found, program, folder, old, fault, chance.random() < 0.5):
                met.add((fault.file, fault.call))
    lacking = {(fault.file, fault.call) for fault in faults} - met
    found.hold(size.faults != ALL or not lacking, f"no call failed of {sorted(lacking)}")
    return found.result(f"{len(faults)} faults, {len(met)} kinds of calls failed")
