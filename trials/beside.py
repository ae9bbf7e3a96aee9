"""Asks this store, etcd (its v2 interface) and redis in turn, and tells the requests a second of each and their ratios.

Values of 100 bytes under 1,000 keys, at 1 to 1,000 connections that are asked at the same time, one request at a time each. The
store has as many workers as there are connections, but no more than four. All three are asked by one client, on as many threads as
there are connections, but no more than four. etcd's data lie in memory, and redis saves nothing. They are asked right after one
another, in each of some rounds, with a fresh server of this store in each, in an order that is drawn: where a machine goes up and
down, many short rounds say more than a few long ones. What is told is the middle of the rounds, of requests and of ratios, and the
milliseconds in which 99 of 100 answers came. The figures are measurements, and none of them is judged.
"""
from __future__ import annotations

import itertools
import os
import random
import statistics
import tempfile
from dataclasses import dataclass, field
from pathlib import Path

from load import IN_MEMORY, Asker, Rate, etcd, redis
from server import Server, stopped_in_order
from trial import Findings, Result, tool

NAME = "beside"
PROMISES = "Requests a second of 1 to 1,000 connections, measured beside etcd and redis."
QUICK = False


@dataclass(frozen=True)
class Size:
    """Rounds, how long each store is asked, numbers of connections, and the most threads that ask and workers that answer."""

    rounds: int
    seconds: float
    connections: tuple[int, ...]
    threads: int
    workers: int


FULL = Size(rounds=3, seconds=2.0, connections=(1, 2, 4, 64, 256, 1_000), threads=4, workers=4)
SHORT = Size(rounds=1, seconds=0.5, connections=(1, 4), threads=4, workers=4)

METHODS = ("PUT", "GET")
HEAD = "                  store     etcd    redis  to etcd  to redis   (least and greatest of the store, of redis; 99 of 100 in ms)"


@dataclass
class Rates:
    """What was measured of all rounds, by who was asked, the method and the number of connections."""

    by_what: dict[tuple[str, str, int], list[Rate]] = field(default_factory=dict)

    def note(self, who: str, method: str, connections: int, rate: Rate) -> None:
        self.by_what.setdefault((who, method, connections), []).append(rate)

    def a_second(self, who: str, method: str, connections: int) -> list[float]:
        return [rate.a_second for rate in self.by_what[who, method, connections]]

    def slow_ms(self, who: str, method: str, connections: int) -> float:
        return statistics.median(rate.slow_us for rate in self.by_what[who, method, connections]) / 1000

    def ratio(self, who: str, method: str, connections: int) -> float:
        """The middle of the ratios of this store's rates to another's."""
        both = zip(self.a_second("store", method, connections), self.a_second(who, method, connections))
        return statistics.median(ours / its for ours, its in both)

    def line(self, method: str, connections: int) -> str:
        told = {who: self.a_second(who, method, connections) for who in ("store", "etcd", "redis")}
        middles = "  ".join(f"{statistics.median(rates):7.0f}" for rates in told.values())
        ends = "  ".join(f"{min(told[who]):.0f}..{max(told[who]):.0f}" for who in ("store", "redis"))
        slow = "  ".join(f"{self.slow_ms(who, method, connections):.1f}" for who in ("store", "redis"))
        to_etcd, to_redis = (self.ratio(who, method, connections) for who in ("etcd", "redis"))
        return f"{method}, {connections:4} at once {middles}  {to_etcd:7.2f}  {to_redis:8.2f}   ({ends}; {slow})"


@dataclass
class Round:
    """How all three are asked: by whom, how much, and at which ports the others are."""

    program: Path
    asker: Asker
    size: Size
    others: dict[str, int]
    chance: random.Random

    def measure(self, rates: Rates, connections: int) -> None:
        """Asks all three at so many connections, in an order that is drawn."""
        with stopped_in_order(Server.serve(self.program, min(connections, self.size.workers))) as server:
            server.wait_until_it_answers()
            ports = {"store": server.port, **self.others}
            for method in METHODS:
                for who in self.chance.sample(sorted(ports), len(ports)):
                    how = {"connections": connections, "threads": self.size.threads}
                    rates.note(who, method, connections, self.asker.ask(who, ports[who], method, self.size.seconds, **how))


def run(program: Path, seed: int, size: Size) -> Result:
    for name in ("redis-server", "etcd"):
        tool(name)
    found, rates = Findings(), Rates()
    found.say(f"{os.cpu_count()} processors, load {os.getloadavg()[0]:.1f}; {size.rounds} rounds of {size.seconds} s")
    with tempfile.TemporaryDirectory(dir=IN_MEMORY) as name:
        folder = Path(name)
        asker = Asker(folder, seed)
        with redis(folder) as (redis_port, _), etcd(folder) as etcd_port:
            others = {"redis": redis_port, "etcd": etcd_port}
            one = Round(program, asker, size, others, random.Random(seed))
            for _, connections in itertools.product(range(size.rounds), size.connections):
                one.measure(rates, connections)
    found.say(f"load at the end {os.getloadavg()[0]:.1f}")
    found.say(HEAD)
    for method, connections in itertools.product(METHODS, size.connections):
        found.say(rates.line(method, connections))
    first = ", ".join(f"{method} {rates.ratio('redis', method, size.connections[0]):.2f}" for method in METHODS)
    return found.result(f"connections {size.connections[0]}: {first} of redis")
