"""Snapshots of which a call of the system fails: by strace, each opening, write, forcing and renaming of each file in turn."""
from __future__ import annotations

import contextlib
import random
import subprocess
import time
from collections.abc import Iterator
from dataclasses import dataclass
from pathlib import Path

import kept
from server import Server
from trial import Findings, Result, Skipped, tool

NAME = "failing_calls"
PROMISES = "A snapshot of which a system's call fails is told by its file, and the next one is whole."
QUICK = True

FILES = ("vnode-0.records", "vnode-1.records", "vnode-2.records", "hooks.requests")
FAULTS = {"open,openat": "EACCES", "write,writev": "ENOSPC", "fsync": "EIO", "rename,renameat,renameat2": "EIO"}
ATTACH_SECONDS = 30


@dataclass(frozen=True)
class Failing:
    """Calls of the system at a file, of which the first fails."""

    file: str
    calls: str

    def words(self, folder: Path) -> list[str]:
        """How strace is told."""
        inject = f"inject={self.calls}:error={FAULTS[self.calls]}:when=1"
        return [tool("strace"), "-f", "-qq", "-o", "/dev/null", "-P", f"{folder / self.file}.part", "-e", inject]


EACH = [Failing(file, calls) for file in FILES for calls in FAULTS]


@dataclass(frozen=True)
class Size:
    """How many calls of the system fail."""

    calls: int


FULL, SHORT = Size(calls=len(EACH)), Size(calls=3)


def is_traced(server: Server) -> bool:
    statuses = (Path(f"/proc/{server.pid}/task/{thread}/status").read_text(encoding="utf-8") for thread in server.threads())
    return all("TracerPid:\t0\n" not in status for status in statuses)


@contextlib.contextmanager
def traced(server: Server, failing: Failing, folder: Path) -> Iterator[None]:
    """A server at whose next calls strace looks."""
    with subprocess.Popen([*failing.words(folder), "-p", str(server.pid)], stderr=subprocess.PIPE, text=True) as tracer:
        try:
            until = time.monotonic() + ATTACH_SECONDS
            while not is_traced(server):
                if tracer.poll() is not None or time.monotonic() > until:
                    raise Skipped("no right to trace")
                time.sleep(0.01)
            yield
        finally:
            tracer.terminate()


def try_start(found: Findings, program: Path, folder: Path, least: int, most: int, what: str) -> None:
    loaded = kept.loaded_from(program, folder)
    found.hold(loaded is not None and least <= loaded <= most, f"{what}: {loaded} records in place of {least} to {most}")


def try_failing(found: Findings, program: Path, failing: Failing) -> None:
    """Two snapshots of a store that was given a second key, of which the first fails."""
    what, first, both = f"{failing.file} {failing.calls}", kept.VNODES, 2 * kept.VNODES
    with kept.folders(**{kept.SETTINGS: kept.THREE_COPIES}) as folder:
        with Server.keep(program, folder) as server:
            kept.put(server, "first", b"1")
            server.stop_in_order()
        with Server.keep(program, folder) as server:
            kept.put(server, "second", b"2")
            with traced(server, failing, folder):  # each thread fails once, so strace looks at one snapshot alone
                line = server.snapshot()
            found.hold((line or "").startswith(f"not kept {failing.file}: "), f"{what}: {line}")
            try_start(found, program, folder, first, both, f"{what}, and a start")
            line = server.snapshot()
            found.hold(kept.is_whole_snapshot(line, both), f"{what}, and the next: {line}")
            server.stop_in_order()
        try_start(found, program, folder, both, both, f"{what}, and a start behind the stop")


def run(program: Path, seed: int, size: Size) -> Result:
    tool("strace")
    found = Findings()
    for failing in random.Random(seed).sample(EACH, size.calls):
        try_failing(found, program, failing)
    return found.result(f"{size.calls} calls of the system failed")
