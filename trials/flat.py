"""Whether a server's memory stays flat while clients do the same for minutes.

Each of three loads has a server of its own, with two workers; all go on at the same time. `rejected`: writes to one key that its
bucket's hook rejects. `large`: a key of 65,536 bytes that is read and written again in the context of that read. `deletes`: fresh
keys, each written, read and deleted. Memory is what the system says that a process holds, told from time to time, and of deletes
how many bytes each deleted key has taken since half of the time: until then what is kept of the last answers, and for what waits,
fills up. After that half no server may hold more than 5 % above what it held then, less 250 bytes for each key that was deleted
since. The short form, which is over before all is filled up, judges the answers alone.
"""
from __future__ import annotations

import random
import threading
import time
from dataclasses import dataclass
from pathlib import Path

from server import MIB, Client, Server
from trial import Findings, Result
from troubles import PRE_COMMIT, image

NAME = "flat"
PROMISES = "A server that is asked the same for minutes holds no more memory after half of the time."
QUICK = False


@dataclass(frozen=True)
class Size:
    """For how long, how fast each client goes at the most, and whether growth is judged."""

    minutes: float
    rounds_a_second: float
    is_judged: bool


FULL = Size(minutes=20.0, rounds_a_second=1_000.0, is_judged=True)
SHORT = Size(minutes=0.25, rounds_a_second=1_000.0, is_judged=False)

LOOKS = 40
WORKERS = 2
LARGE_BYTES = 65_536
SMALL_BYTES = 100
DELETED_KEY_BYTES = 250
SPARE_PART = 0.05
KEY = "/buckets/b/keys/k"


class Load(threading.Thread):
    """A client that does rounds of the same at a server of its own until it is told to end."""

    is_of_deletes = False

    def __init__(self, program: Path, rounds_a_second: float, chance: random.Random):
        super().__init__(daemon=True)
        self.server, self.chance, self.rounds_a_second = Server.serve(program, WORKERS), chance, rounds_a_second
        self.client = self.server.client()
        self.rounds, self.is_over, self.fault = 0, False, ""
        self.begin(self.client)

    def begin(self, client: Client) -> None:
        """What is done once."""

    def round(self, client: Client) -> None:
        raise NotImplementedError

    def run(self) -> None:
        begun = time.monotonic()
        try:
            while not self.is_over:
                self.round(self.client)
                self.rounds += 1
                time.sleep(max(0.0, begun + self.rounds / self.rounds_a_second - time.monotonic()))
        except (OSError, ValueError) as error:
            self.fault = f"{type(error).__name__}: {error}"

    def end(self) -> None:
        """Ends, and stops the server in order."""
        self.is_over = True
        self.join(60)
        self.client.close()
        self.server.stop_in_order()


class Rejected(Load):
    """Writes to one key that the bucket's hook rejects."""

    def begin(self, client: Client) -> None:
        client.must(204, "PUT", "/hooks/no", image(PRE_COMMIT, 256, 256 + 1))
        client.must(204, "PUT", "/buckets/b/props", b'{"props":{"precommit":"no"}}')

    def round(self, client: Client) -> None:
        client.must(403, "PUT", KEY, self.chance.randbytes(SMALL_BYTES))


class Large(Load):
    """One key of a large value, read and written again."""

    def begin(self, client: Client) -> None:
        self.value = self.chance.randbytes(LARGE_BYTES)
        client.must(204, "PUT", KEY, self.value)

    def round(self, client: Client) -> None:
        client.must(204, "PUT", KEY, self.value, client.must(200, "GET", KEY).context)


class Deletes(Load):
    """Fresh keys that are written, read and deleted."""

    is_of_deletes = True

    def round(self, client: Client) -> None:
        path = f"/buckets/b/keys/key{self.rounds}"
        client.must(204, "PUT", path, self.chance.randbytes(SMALL_BYTES))
        client.must(204, "DELETE", path, context=client.must(200, "GET", path).context)


@dataclass(frozen=True)
class Look:
    """What a server held, and how many rounds its client had done."""

    memory_bytes: int
    rounds: int


def watched(found: Findings, loads: list[Load], minutes: float) -> list[list[Look]]:
    """What each server held from time to time."""
    begun, looks = time.monotonic(), [[] for _ in loads]
    every_seconds = minutes * 60 / LOOKS
    for step in range(1, LOOKS + 1):
        time.sleep(max(0.0, begun + step * every_seconds - time.monotonic()))
        for load, its in zip(loads, looks):
            its.append(Look(load.server.memory_bytes(), load.rounds))
        parts = (f"{type(load).__name__} {its[-1].memory_bytes / MIB:7.1f} MB {its[-1].rounds:8}" for load, its in zip(loads, looks))
        found.say(f"{step * every_seconds:5.0f} s  " + "   ".join(parts))
    return looks


def growth_of(found: Findings, load: Load, looks: list[Look]) -> float:
    """By what part the most that a server held after half of the time is above what it held then, less what is kept of deleted keys."""
    half, last, name = looks[len(looks) // 2 - 1], looks[-1], type(load).__name__
    a_round = DELETED_KEY_BYTES if load.is_of_deletes else 0
    most = max(look.memory_bytes - a_round * (look.rounds - half.rounds) for look in looks[len(looks) // 2 :])
    growth = most / half.memory_bytes - 1
    if load.is_of_deletes:
        each = (last.memory_bytes - half.memory_bytes) / max(1, last.rounds - half.rounds)
        found.say(f"{name}: {each:.0f} bytes a deleted key")
    found.say(f"{name}: {half.memory_bytes / MIB:.1f} MB after half of the time, then at the most {growth:+.1%}")
    return growth


def run(program: Path, seed: int, size: Size) -> Result:
    found, chance = Findings(), random.Random(seed)
    loads = [kind(program, size.rounds_a_second, random.Random(chance.random())) for kind in (Rejected, Large, Deletes)]
    for load in loads:
        load.start()
    looks = watched(found, loads, size.minutes)
    growths = [growth_of(found, load, its) for load, its in zip(loads, looks)]
    for load, growth in zip(loads, growths):
        load.end()
        found.hold(not load.fault, f"{type(load).__name__}: {load.fault}")
        found.hold(not size.is_judged or growth <= SPARE_PART, f"{type(load).__name__} is flat, and does not grow by {growth:.1%}")
    shown = f"growth {max(growths):+.1%} at the most"
    return found.result(shown if size.is_judged else f"{shown}, not judged")
