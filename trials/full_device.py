"""Snapshots on a device that is full, and then on one that has room again: a small file system in memory, which only root may mount."""
from __future__ import annotations

import contextlib
import random
import subprocess
from collections.abc import Iterator
from pathlib import Path

import kept
from server import Server
from trial import Findings, Result, Skipped, Whole

NAME = "full_device"
PROMISES = "A snapshot on a full device is told, and the last whole one is there at the next start."
QUICK = True
FULL = SHORT = Whole()

SMALL, ROOMY = "size=256k", "size=8m"
VALUE_BYTES = 4_000
MOST_KEYS = 60


@contextlib.contextmanager
def small_device(folder: Path) -> Iterator[None]:
    words = ["mount", "-t", "tmpfs", "-o", SMALL, "tmpfs", str(folder)]
    try:
        mounted = subprocess.run(words, stderr=subprocess.DEVNULL, check=False).returncode == 0
    except FileNotFoundError:
        raise Skipped("no mount") from None
    if not mounted:
        raise Skipped("no right to mount")
    try:
        yield
    finally:
        Server.kill_all()
        subprocess.run(["umount", folder], check=False)


def fill_up(found: Findings, program: Path, folder: Path, chance: random.Random) -> tuple[int, int]:
    """Writes until a snapshot fails. Gives how many records the last whole one has, and how many keys there are."""
    whole, line, keys = 0, None, 0
    with Server.keep(program, folder) as server:
        while keys < MOST_KEYS:
            kept.put(server, keys, chance.randbytes(VALUE_BYTES))
            keys += 1
            line = server.snapshot()
            if not kept.is_whole_snapshot(line):
                break
            whole = int(line.split()[1])
        is_told = (line or "").startswith("not kept vnode-") and (line or "").endswith(".records: unwritten")
        found.hold(is_told, f"a full device: {line}")
    return whole, keys


def run(program: Path, seed: int, size: Whole) -> Result:
    found, chance = Findings(), random.Random(seed)
    with kept.folders() as folder, small_device(folder):
        whole, keys = fill_up(found, program, folder, chance)
        with Server.keep(program, folder) as again:
            # Each of three files is replaced for itself: some may be those of the snapshot that failed.
            is_last = again.loaded is not None and whole <= again.loaded < whole + kept.VNODES
            found.hold(is_last, f"after a full device: {again.loaded} records in place of {whole}")
            kept.put(again, "more", chance.randbytes(VALUE_BYTES))
            subprocess.run(["mount", "-o", f"remount,{ROOMY}", folder], check=True)
            line = again.snapshot()
            found.hold(kept.is_whole_snapshot(line), f"a device that has room again: {line}")
            end = again.stop()
            found.hold(end is not None and end.is_in_order, f"a device that has room again: {end}")
    return found.result(f"full at {keys} keys, {whole} records stayed")
