"""Watches the calls of a kept store, and looks whether each write is in the log before it is acknowledged.

Some clients write keys of their own, one after another, while `strace` writes down what the server reads, writes and forces. Under
`sync always` the record of a key has to be written to a log and a force that began later has to have ended before 204 goes out for it,
and under `sync everysec` and `sync never` it has to be written. Under `sync everysec` the log is forced while writes come.
"""
from __future__ import annotations

import re
import subprocess
import threading
import time
from collections.abc import Iterable
from dataclasses import dataclass, field
from pathlib import Path

import kept
from server import Server
from trial import Findings, Result, tool

NAME = "log_order"
PROMISES = "A write is in the log, and forced where that is set, before it is acknowledged."
QUICK = True


@dataclass(frozen=True)
class Size:
    """How many clients write, and how many keys each."""

    clients: int
    keys: int


FULL, SHORT = Size(clients=8, keys=300), Size(clients=4, keys=25)

CALLS = "read,write,recvfrom,sendto,fdatasync"
ATTACH_SECONDS = 1.5

KEY = re.compile(r"key\d+")
CALL = re.compile(r"^(\d+) +(?:<\.\.\. )?(\w+)(?:\((\d+)| resumed>)(.*)$")


@dataclass
class Watched:
    """What was seen of a server's calls: which keys are in a log, which of them were forced, and what was told too early."""

    is_forced: bool
    reading: dict[str, str] = field(default_factory=dict)
    asked: dict[str, list[str]] = field(default_factory=dict)
    written: set[str] = field(default_factory=set)
    forced: set[str] = field(default_factory=set)
    under_way: dict[str, set[str]] = field(default_factory=dict)
    forces: int = 0
    told: int = 0
    early: list[str] = field(default_factory=list)

    def see(self, lines: Iterable[str]) -> None:
        for line in lines:
            found = CALL.match(line)
            if found:
                self.call(*found.groups())

    def call(self, thread: str, name: str, descriptor: str | None, rest: str) -> None:
        """A call began, or one that was interrupted by others' lines ended."""
        if name == "recvfrom":
            self.reading[thread] = descriptor or self.reading.get(thread, "")
            if "PUT " in rest:
                self.asked[self.reading[thread]] = KEY.findall(rest)
        elif name == "write" and "DVR" in rest:
            self.written.update(KEY.findall(rest))
        elif name == "fdatasync":
            if descriptor:
                self.under_way[thread] = set(self.written)
            if "unfinished" not in rest:
                self.forced |= self.under_way.pop(thread, set())
                self.forces += 1
        elif name == "sendto" and " 204 " in rest and descriptor:
            have, keys = self.forced if self.is_forced else self.written, self.asked.pop(descriptor, [])
            self.told += len(keys)
            self.early += [key for key in keys if key not in have]


def write_keys(server: Server, first: int, count: int) -> None:
    with server.client() as client:
        for number in range(first, first + count):
            client.must(204, "PUT", f"/buckets/b/keys/key{number:06}", b"v")


def watched(program: Path, sync: bytes, size: Size) -> Watched:
    """What is seen of a server that some clients write to."""
    with kept.folders(settings=kept.NO_SNAPSHOTS_BY_ITSELF + b"sync %s\n" % sync) as folder:
        seen = folder.parent / "calls"
        with Server.keep(program, folder) as server:
            words = [tool("strace"), "-f", "-s", "65536", "-e", f"trace={CALLS}", "-o", seen, "-p", str(server.process.pid)]
            with subprocess.Popen(words, stderr=subprocess.DEVNULL) as watch:
                time.sleep(ATTACH_SECONDS)
                clients = [threading.Thread(target=write_keys, args=(server, place * size.keys, size.keys)) for place in range(size.clients)]
                for client in clients:
                    client.start()
                for client in clients:
                    client.join()
                watch.terminate()
            server.kill()
        found = Watched(is_forced=sync == b"always")
        found.see(seen.read_text(errors="replace").splitlines())
        return found


def run(program: Path, seed: int, size: Size) -> Result:
    del seed
    found, figures = Findings(), []
    for sync in (b"always", b"everysec", b"never"):
        seen = watched(program, sync, size)
        wanted = size.clients * size.keys
        found.hold(seen.told >= wanted * 0.9, f"sync {sync.decode()}: {seen.told} answers were seen of {wanted}")
        found.hold(not seen.early, f"sync {sync.decode()}: acknowledged too early: {seen.early[:5]}")
        found.hold(seen.forces > 0 or sync != b"always", f"sync {sync.decode()}: nothing was forced")
        figures.append(f"{sync.decode()} {seen.told} writes, {seen.forces} forces")
    return found.result(", ".join(figures))
