"""Keys that are written again each time that their store is started: one sibling each, whose clock has an entry for each start.

A kept store is started four times. Each time many keys are read and then written with the context that came, 64 requests together.
A key's context has to have one entry for each start before, each of the same vnode's index, of numbers that rise from start to
start, and of one write, and its value has to be the last start's. Told are the bytes a key that the process holds at the end of each start,
less what it held before any key.
"""
from __future__ import annotations

import random
import time
from dataclasses import dataclass
from pathlib import Path

import kept
from server import Answer, Client, Server, entries_of, request
from trial import Findings, Result

NAME = "rewritten"
PROMISES = "A key that each start writes again has one sibling, and a context of one entry a start."
QUICK = True


@dataclass(frozen=True)
class Size:
    """How many keys there are, and how often the store is started."""

    keys: int
    starts: int


FULL, SHORT = Size(keys=100_000, starts=4), Size(keys=2_000, starts=4)

TOGETHER = 64
SETTLE_SECONDS = 1.0


def path(number: int) -> str:
    return f"/buckets/b/keys/key{number}"


def value(start: int) -> bytes:
    return b"%04d" % start + b"v" * 96


def is_right(answer: Answer, starts: int) -> bool:
    """Whether what a read answers was written by so many starts, the last one's value."""
    if not starts:
        return answer.status == 404
    if (answer.status, answer.body) != (200, value(starts - 1)):
        return False
    entries = entries_of(answer.context)
    numbers = [entry.number for entry in entries]
    is_of_starts = len(numbers) == starts and all(sooner < later for sooner, later in zip(numbers, numbers[1:]))
    return is_of_starts and all((entry.index, entry.count) == (entries[0].index, 1) for entry in entries)


def rewrite(client: Client, start: int, numbers: list[int]) -> int:
    """Reads each key and writes it again. The number of answers that weren't as they had to be."""
    wrong = 0
    for first in range(0, len(numbers), TOGETHER):
        some = numbers[first : first + TOGETHER]
        reads = client.ask_together([request("GET", path(number)) for number in some])
        wrong += sum(not is_right(answer, start) for answer in reads)
        writes = [request("PUT", path(number), value(start), read.context) for number, read in zip(some, reads)]
        wrong += sum(answer.status != 204 for answer in client.ask_together(writes))
    return wrong


def run(program: Path, seed: int, size: Size) -> Result:
    found, numbers, empty = Findings(), list(range(size.keys)), None
    random.Random(seed).shuffle(numbers)
    with kept.folders() as folder:
        for start in range(size.starts):
            with Server.keep(program, folder) as server:
                with server.client() as client:
                    if empty is None:
                        client.must(404, "GET", path(0))
                        empty = server.memory_bytes()
                    wrong = rewrite(client, start, numbers)
                found.hold(wrong == 0, f"start {start + 1}: {wrong} answers were not as they had to be")
                time.sleep(SETTLE_SECONDS)
                bytes_a_key = (server.memory_bytes() - empty) / size.keys
                found.say(f"{start + 1} starts: {bytes_a_key:.0f} bytes a key")
                server.stop_in_order()
    return found.result(f"{size.keys} keys, {size.starts} starts, {bytes_a_key:.0f} bytes a key")
