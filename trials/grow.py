"""Stores more and more keys in this store and in redis, and tells the requests a second and the memory of each.

For each number of keys there are three rounds (nine of up to 10,000 keys, since few writes are over soon) with servers of their
own, this store's with two workers: values of 100 bytes under so many keys are written in a scattered order, 16 requests together on
each of two connections, by one client. Then they are read in that order three times: from this store, from redis, and from another
server of this store that has a thousand keys, right after one another, since a machine may be twice as fast a minute later. What is
told is the middle of the rounds, of requests and of ratios, and memory: what the system says that a process holds once the writes
are over. This store is stopped in order after each round. redis saves nothing. The figures are measurements, and none of them is
judged.
"""
from __future__ import annotations

import contextlib
import operator
import statistics
import tempfile
from collections.abc import Iterator
from dataclasses import dataclass
from pathlib import Path

from load import IN_MEMORY, Asker, redis
from server import Server, memory_bytes, stopped_in_order
from trial import Findings, Result, tool

NAME = "grow"
PROMISES = "Requests a second and memory of a thousand to a million keys, measured beside redis."
QUICK = False

A_THOUSAND = 1_000
FEW_KEYS = 10_000
TOGETHER = 16
LONGEST_SECONDS = 600
WORKERS = 2


@dataclass(frozen=True)
class Size:
    """Numbers of keys, rounds of each (of few keys, and of more), reads of a round and how long each takes, and connections."""

    keys: tuple[int, ...]
    rounds_of_few: int
    rounds: int
    reads: int
    read_seconds: float
    connections: int


FULL = Size((1_000, 10_000, 100_000, 400_000, 1_000_000), rounds_of_few=9, rounds=3, reads=3, read_seconds=0.7, connections=2)
SHORT = Size((1_000, 20_000), rounds_of_few=1, rounds=1, reads=3, read_seconds=0.7, connections=2)

HEAD = "     keys      PUT      GET  bytes a key   redis: SET      GET  bytes a key   PUT to SET  GET to GET  to GET at 1,000"


@dataclass(frozen=True)
class Round:
    """Of this store and of redis: writes a second, reads a second (and those of a thousand keys), and bytes that are held."""

    writes: tuple[float, float]
    reads: list[tuple[float, float, float]]
    held_bytes: tuple[int, int]


@dataclass(frozen=True)
class Measuring:
    """The program, where redis may write, who asks, and how much."""

    program: Path
    folder: Path
    asker: Asker
    size: Size

    def a_second(self, who: str, port: int, method: str, keys: int, seconds: float) -> float:
        how = {"connections": self.size.connections, "together": TOGETHER, "keys": keys}
        return self.asker.ask(who, port, method, seconds, **how).a_second

    @contextlib.contextmanager
    def of_a_thousand(self) -> Iterator[int]:
        """The port of a server that has a thousand keys."""
        with stopped_in_order(Server.serve(self.program, WORKERS)) as server:
            server.wait_until_it_answers()
            self.a_second("store", server.port, "PUT", A_THOUSAND, LONGEST_SECONDS)
            yield server.port

    def round(self, keys: int, port_of_a_thousand: int) -> Round:
        with stopped_in_order(Server.serve(self.program, WORKERS)) as server, redis(self.folder) as (redis_port, redis_pid):
            server.wait_until_it_answers()
            both = (("store", server.port), ("redis", redis_port))
            writes = tuple(self.a_second(who, port, "PUT", keys, LONGEST_SECONDS) for who, port in both)
            held_bytes = server.memory_bytes(), memory_bytes(redis_pid)
            asked = [(*one, keys) for one in both] + [("store", port_of_a_thousand, A_THOUSAND)]
            reads = [
                tuple(self.a_second(who, port, "GET", of, self.size.read_seconds) for who, port, of in asked)
                for _ in range(self.size.reads)
            ]
        return Round(writes, reads, held_bytes)


def ratio(rows: list[tuple[float, ...]], place: int) -> float:
    """The middle of the ratios of this store's to what stands at a place."""
    return statistics.median(operator.truediv(row[0], row[place]) for row in rows)


def line_of(keys: int, rounds: list[Round]) -> str:
    writes, reads = [one.writes for one in rounds], [row for one in rounds for row in one.reads]
    put, set_ = map(statistics.median, zip(*writes))
    get, redis_get, _ = map(statistics.median, zip(*reads))
    ours, theirs = (statistics.median(held) / keys for held in zip(*(one.held_bytes for one in rounds)))
    measures = f"{keys:9} {put:8.0f} {get:8.0f} {ours:12.0f} {set_:12.0f} {redis_get:8.0f} {theirs:12.0f}"
    return f"{measures} {ratio(writes, 1):12.2f} {ratio(reads, 1):11.2f} {ratio(reads, 2):16.2f}"


def run(program: Path, seed: int, size: Size) -> Result:
    tool("redis-server")
    found = Findings()
    found.say(HEAD)
    with tempfile.TemporaryDirectory(dir=IN_MEMORY) as name:
        folder = Path(name)
        measuring = Measuring(program, folder, Asker(folder, seed), size)
        for keys in size.keys:
            with measuring.of_a_thousand() as port:
                count = size.rounds_of_few if keys <= FEW_KEYS else size.rounds
                rounds = [measuring.round(keys, port) for _ in range(count)]
            found.say(line_of(keys, rounds))
    reads = [row for one in rounds for row in one.reads]
    return found.result(f"{keys} keys: PUT {ratio([one.writes for one in rounds], 1):.2f}, GET {ratio(reads, 1):.2f} of redis")
