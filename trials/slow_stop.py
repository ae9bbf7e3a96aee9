"""Stops a kept store while a client takes its answers slowly.

No snapshot is made by itself. Values are written, each answered; then a client asks for many of them, and takes a few thousand bytes
a second, so that it never takes nothing for long. Then the server is told to stop. In one try it is killed some seconds later, while
it still waits for that client: all that was answered before the line has to be there at the next start. In another it is left alone,
beside a client that takes nothing at all, too: it has to end within ten seconds, and some more for a machine that has else to do, and
keep everything.
"""
from __future__ import annotations

import contextlib
import random
import threading
import time
from pathlib import Path

import kept
from server import Server, request
from trial import Findings, Result, Whole

NAME = "slow_stop"
PROMISES = "A slow reader holds a stop up for ten seconds at most, and a kill meanwhile loses nothing."
QUICK = True
FULL = SHORT = Whole()

KEYS = 64
VALUE_BYTES = 65_536
READS = 1_024
PIECE_BYTES = 2_048
PAUSE_SECONDS = 0.5
KILL_SECONDS = 4.0
STOP_SECONDS = 10.0
LATE_SECONDS = 5.0
CLIENT_SECONDS = 60.0


def key(number: int) -> str:
    return f"/buckets/b/keys/k{number}"


class SlowReader(threading.Thread):
    """Asks for many values, and takes a little of the answers now and then, or nothing, until its connection ends."""

    def __init__(self, server: Server, takes: bool):
        super().__init__(daemon=True)
        self.takes = takes
        self.client = server.client()
        self.client.send_without_waiting(b"".join(request("GET", key(number % KEYS)) for number in range(READS)))
        self.client.socket.settimeout(CLIENT_SECONDS)
        self.start()

    def run(self) -> None:
        with contextlib.suppress(OSError):
            while self.takes and self.client.socket.recv(PIECE_BYTES):
                time.sleep(PAUSE_SECONDS)


def written(server: Server, chance: random.Random) -> list[bytes]:
    """Values that were written, each answered."""
    values = [chance.randbytes(VALUE_BYTES) for _ in range(KEYS)]
    with server.client() as client:
        for number, value in enumerate(values):
            client.must(204, "PUT", key(number), value, client.ask("GET", key(number)).context)
    return values


def try_all_there(found: Findings, program: Path, folder: Path, values: list[bytes], what: str) -> None:
    with Server.keep(program, folder) as server:
        with server.client() as client:
            lacking = [number for number, value in enumerate(values) if client.ask("GET", key(number)).body != value]
        found.hold(not lacking, f"{what}: {len(lacking)} of {len(values)} writes that were answered are lost")
        server.stop_in_order()


def try_kill(found: Findings, program: Path, folder: Path, chance: random.Random) -> None:
    with Server.keep(program, folder) as server:
        values = written(server, chance)
        SlowReader(server, takes=True)
        time.sleep(1)
        server.say("stop")
        time.sleep(KILL_SECONDS)
        found.hold(server.is_running, "a client that takes its answers slowly is waited for")
        found.say(f"{KILL_SECONDS} s after the stop was told: {server.told.texts()}")
        server.kill()
    try_all_there(found, program, folder, values, "after a kill behind a stop")


def try_end(found: Findings, program: Path, folder: Path, chance: random.Random) -> float:
    """Gives how long the stop took."""
    with Server.keep(program, folder) as server:
        values = written(server, chance)
        for takes in (True, False):
            SlowReader(server, takes)
        time.sleep(1)
        begun = time.monotonic()
        end = server.stop(STOP_SECONDS + LATE_SECONDS)
        seconds = time.monotonic() - begun
        is_kept = end is not None and end.is_in_order and end.printed[0].startswith("kept ")
        found.hold(is_kept, f"it ends within {STOP_SECONDS + LATE_SECONDS} s of the stop, in order: {end}")
    try_all_there(found, program, folder, values, "after a stop")
    return seconds


def run(program: Path, seed: int, size: Whole) -> Result:
    found, chance = Findings(), random.Random(seed)
    with kept.folders(**{kept.SETTINGS: kept.NO_SNAPSHOTS_BY_ITSELF}) as folder:
        try_kill(found, program, folder, chance)
        seconds = try_end(found, program, folder, chance)
    return found.result(f"a stop took {seconds:.1f} s")
