"""Measures what logs cost: this store without one and with each `sync`, redis without one and with each `appendfsync`, and one etcd.

All are asked by one client, right after one another in an order that is drawn, each as a fresh server whose folder lies on the device
of the system's folder for temporary files, in each of some rounds: reads of a thousand keys, and then writes of values of 100 bytes
under new keys (etcd, by its interface of version 2, writes the thousand keys again). What is told is the middle of the rounds, as a
table for docs/SPEED.md, with the day, the machine and its load. The figures are measurements, and none of them is judged.
"""
from __future__ import annotations

import contextlib
import datetime
import os
import random
import statistics
import tempfile
from collections.abc import Iterator
from dataclasses import dataclass, field
from pathlib import Path

import kept
from beside import Size
from load import Asker, etcd, redis
from server import Server, stopped_in_order
from trial import Findings, Result, tool

NAME = "logs"
PROMISES = "Requests a second with each way to force a log, measured beside redis and etcd."
QUICK = False


FULL = Size(rounds=3, seconds=1.0, connections=(1, 64, 1_000), threads=4, workers=4)
SHORT = Size(rounds=1, seconds=0.3, connections=(1, 64), threads=4, workers=4)

# Those that are asked, as (who, how its log is forced).
STORES = (("store", ""), ("store", "never"), ("store", "everysec"), ("store", "always"))
REDISES = (("redis", ""), ("redis", "no"), ("redis", "everysec"), ("redis", "always"))
ASKED = (*STORES, *REDISES, ("etcd", "always"))
HEADS = ("no log (`serve`)", "`never`", "`everysec`", "`always`", "redis, no log", "`no`", "`everysec`", "`always`", "etcd v2", "of redis")
METHODS = ("PUT", "GET")
MANY, MANY_TOGETHER = 64, 16
FEW_KEYS = 1_000
# More than are written in any time: each key is written once.
NEW_KEYS = 40_000_009
PREPARED_SECONDS = 60


@dataclass(frozen=True)
class Load:
    """So many connections, and so many requests together on each."""

    connections: int
    together: int = 1

    def __str__(self) -> str:
        return f"{self.connections:,}" + (f", {self.together} together" if self.together > 1 else "")


@dataclass
class Rates:
    """What was measured of all rounds, by who was asked, the method and the load."""

    by_what: dict[tuple[tuple[str, str], str, Load], list[float]] = field(default_factory=dict)

    def note(self, who: tuple[str, str], method: str, load: Load, a_second: float) -> None:
        self.by_what.setdefault((who, method, load), []).append(a_second)

    def middle(self, who: tuple[str, str], method: str, load: Load) -> float:
        return statistics.median(self.by_what[who, method, load])

    def row(self, method: str, load: Load) -> str:
        middles = [f"{round(self.middle(who, method, load), -2):,.0f}" for who in ASKED]
        both = zip(self.by_what[("store", "always"), method, load], self.by_what[("redis", "always"), method, load])
        ratio = statistics.median(ours / theirs for ours, theirs in both)
        return f"| {load} | {' | '.join(middles)} | {ratio:.2f} |"


@contextlib.contextmanager
def serving(program: Path, who: tuple[str, str], folder: Path, workers: int) -> Iterator[int]:
    """The port of a fresh server."""
    name, forced = who
    if name == "redis":
        with redis(folder, forced) as (port, _):
            yield port
    elif name == "etcd":
        with etcd(folder) as port:
            yield port
    elif not forced:
        with stopped_in_order(Server.serve(program, workers)) as server:
            server.wait_until_it_answers()
            yield server.port
    else:
        (folder / kept.SETTINGS).write_bytes(kept.NO_SNAPSHOTS_BY_ITSELF + f"sync {forced}\n".encode())
        with Server.keep(program, folder, workers) as server:
            yield server.port


@dataclass
class Measuring:
    """The program, who asks, and how much."""

    program: Path
    asker: Asker
    size: Size
    rates: Rates = field(default_factory=Rates)

    def measure(self, who: tuple[str, str], load: Load) -> None:
        """A fresh server: a thousand keys are written, and then it is asked."""
        how = {"connections": load.connections, "together": load.together, "threads": self.size.threads}
        with tempfile.TemporaryDirectory(prefix="logs-") as name:
            with serving(self.program, who, Path(name), min(load.connections, self.size.workers)) as port:
                self.asker.ask(who[0], port, "PUT", PREPARED_SECONDS, connections=1, keys=FEW_KEYS)
                for method, keys in (("GET", 0), ("PUT", NEW_KEYS)):
                    asked = self.asker.ask(who[0], port, method, self.size.seconds, **how, keys=keys)
                    self.rates.note(who, method, load, asked.a_second)


def machine() -> str:
    lines = Path("/proc/cpuinfo").read_text(encoding="utf-8").splitlines()
    model = next((line.partition(": ")[2] for line in lines if line.startswith("model name")), "of a kind that isn't told")
    return f"{os.cpu_count()} processors {model}, load {os.getloadavg()[0]:.1f}"


def run(program: Path, seed: int, size: Size) -> Result:
    for name in ("redis-server", "etcd"):
        tool(name)
    found, chance = Findings(), random.Random(seed)
    loads = [*map(Load, size.connections), Load(min(MANY, max(size.connections)), MANY_TOGETHER)]
    found.say(f"{datetime.date.today()}, {machine()}; {size.rounds} rounds of {size.seconds} s; folders in {tempfile.gettempdir()}")
    with tempfile.TemporaryDirectory() as name:
        measuring = Measuring(program, Asker(Path(name), seed), size)
        for _ in range(size.rounds):
            for load in loads:
                for who in chance.sample(ASKED, len(ASKED)):
                    measuring.measure(who, load)
    rates = measuring.rates
    for method in METHODS:
        found.say(f"| {method} a second, connections | {' | '.join(HEADS)} |")
        found.say("|---" * (len(HEADS) + 1) + "|")
        for load in loads:
            found.say(rates.row(method, load))
    found.say(f"load at the end {os.getloadavg()[0]:.1f}")
    always, never = (rates.middle(("store", how), "PUT", loads[0]) for how in ("always", ""))
    return found.result(f"a log that is forced has {always / never:.2f} of the writes without one")
