"""Keys that strangers chose so that they collide are found as fast as others.

Each key is twenty pairs of letters, `Aa` or `BB`: all 1,048,576 of them have one value under the hash that multiplies by 31 and
adds a byte, at any number of bits, so that a table by it becomes a list. A million of them are written and then read, one at a
time, at a server with one worker, and as many keys of the same length that don't collide at another; so three times, by servers of
their own. Told are the microseconds of the middle answer, of 999 of 1,000, of all but ten, and of the slowest, and last of the
slowest key: the quickest of its three answers, since who comes late by the machine's work comes late by chance, and who does so by
a key or a growth does so each time. One key is written before, untimed: a server answers from the end of the second in which it
starts. Keys that collide may take no more than twice the middle time of other keys, and the slowest of them no more than ten times
their middle time, which the short form tells and doesn't judge.
"""
from __future__ import annotations

import itertools
import random
import time
from collections.abc import Callable
from dataclasses import dataclass
from pathlib import Path

from server import HEAD_END, Client, Server, request
from trial import Findings, Result

NAME = "colliding"
PROMISES = "Keys chosen to collide are served as fast as others, and none takes ten times as long."
QUICK = False


@dataclass(frozen=True)
class Size:
    """How many keys there are of each kind, by how many servers they are served in turn, and whether the slowest key is judged."""

    keys: int
    rounds: int
    is_slowest_judged: bool


FULL = Size(keys=1_000_000, rounds=3, is_slowest_judged=True)
SHORT = Size(keys=5_000, rounds=3, is_slowest_judged=False)

PAIRS = 20
MOST_OF_MIDDLE = 2.0
MOST_OF_SLOWEST_KEY = 10.0
VALUE = b"v"


@dataclass(frozen=True)
class Method:
    """How a key is asked for, and how the answer begins and ends."""

    name: str
    body: bytes | None
    begin: bytes
    end: bytes

    def request(self, key: str) -> bytes:
        return request(self.name, f"/buckets/b/keys/{key}", self.body)


METHODS = (Method("PUT", VALUE, b"HTTP/1.1 204 ", HEAD_END), Method("GET", None, b"HTTP/1.1 200 ", HEAD_END + VALUE))


def colliding(number: int) -> str:
    return "".join("BB" if number >> place & 1 else "Aa" for place in range(PAIRS))


def other(number: int) -> str:
    return f"{number:0{2 * PAIRS}}"


KINDS: dict[str, Callable[[int], str]] = {"colliding": colliding, "others": other}


def hash_31(key: str) -> int:
    value = 0
    for byte in key.encode():
        value = value * 31 + byte
    return value


def microseconds(client: Client, method: Method, key: str) -> float:
    """How long an answer took."""
    asked = method.request(key)
    begun = time.perf_counter()
    client.send(asked)
    answer = client.until(method.end)
    took = time.perf_counter() - begun
    if not answer.startswith(method.begin):
        raise ValueError(f"{method.name} {key}: {answer!r}")
    return took * 1e6


def measured(program: Path, key_of: Callable[[int], str], numbers: list[int]) -> list[list[float]]:
    """The times of all writes and of all reads, in the order of the keys."""
    with Server.serve(program, 1) as server:
        with server.client() as client:
            microseconds(client, METHODS[0], "first")
            times = [[microseconds(client, method, key_of(number)) for number in numbers] for method in METHODS]
        server.stop_in_order()
    return times


@dataclass(frozen=True)
class Times:
    """What came of all rounds of a method, in microseconds, in order, and of each key the quickest, in order."""

    all: list[float]
    keys: list[float]

    @property
    def middle(self) -> float:
        return self.all[len(self.all) // 2]

    @property
    def slowest_key(self) -> float:
        return self.keys[-1]

    def told(self) -> str:
        behind = (len(self.all) // 1_000, min(10, len(self.all) - 1), 0)
        late = " ".join(f"{self.all[-1 - place]:8.0f}" for place in behind)
        return f"{self.middle:7.0f} {late} {self.slowest_key:8.0f}"


def times_of(rounds: list[list[list[float]]], method: int) -> Times:
    times = [each[method] for each in rounds]
    return Times(sorted(itertools.chain(*times)), sorted(map(min, zip(*times))))


def run(program: Path, seed: int, size: Size) -> Result:
    found = Findings()
    numbers = random.Random(seed).sample(range(2**PAIRS), size.keys)
    if len({hash_31(colliding(number)) for number in numbers[: 1 + size.keys // 1_000]}) != 1:
        raise ValueError("the keys don't collide")
    rounds = {name: [measured(program, key_of, numbers) for _ in range(size.rounds)] for name, key_of in KINDS.items()}
    ratios = []
    for place, method in enumerate(METHODS):
        ours, others = (times_of(rounds[name], place) for name in KINDS)
        for name, times in (("colliding", ours), ("others", others)):
            found.say(f"{method.name} {name:9}: {times.told()}")
        is_near = not size.is_slowest_judged or ours.slowest_key <= MOST_OF_SLOWEST_KEY * ours.middle
        found.hold(is_near, f"{method.name}: the slowest key takes {ours.slowest_key:.0f} us, the middle answer {ours.middle:.0f}")
        ratios.append(ours.middle / others.middle)
        found.hold(ratios[-1] <= MOST_OF_MIDDLE, f"{method.name}: keys that collide take {ratios[-1]:.2f} times as long")
    return found.result(f"{size.keys} keys: writes {ratios[0]:.2f}, reads {ratios[1]:.2f} times as long")
