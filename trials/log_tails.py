"""Leaves the log of a kept store as a crash or a fault of the device may leave it, and starts the store from that.

A store is filled without a snapshot and killed, so that all that was acknowledged stands in its newest log. Copies of the folder are
made whose newest log is cut at places all over it (in full at each byte), or cut with zeros or garbage behind, has zeros from there on,
or has one bit or one byte changed there. Each of them has to start, with the records that stand whole before that place and no others,
and once more after that; what is passed over is told, by its bytes. An older log, which a start has ended in order, is refused by its
name where it was cut or changed at any such place, and so is a folder by the name of a log that is lacking between two others.
"""
from __future__ import annotations

import random
from collections.abc import Iterator
from dataclasses import dataclass
from functools import partial
from pathlib import Path

import damages
import kept
from server import Server, request
from trial import ALL, Findings, Result, side_by_side

NAME = "log_tails"
PROMISES = "A log that a crash tore is read up to its last whole record, and an older one is refused."
QUICK = True


@dataclass(frozen=True)
class Size:
    """How many keys the log has, and at how many places it is damaged, or ALL."""

    keys: int
    places: int

    def some(self, length: int, chance: random.Random) -> list[int]:
        return list(range(length)) if self.places == ALL else sorted(chance.sample(range(length), self.places))


FULL, SHORT = Size(keys=4, places=ALL), Size(keys=60, places=4)

MARK = b"DVR"
TAILS = (b"\0" * 4_096, b"DVR2", bytes(range(256)))
STARTS_AT_ONCE = 4
TRIED_AGAIN = 0.2


def newest_log(folder: Path) -> Path:
    return max(folder.glob("log-*"), key=lambda path: int(path.name.partition("-")[2]))


def ends_of(log: bytes) -> list[int]:
    """Where each record of a log ends: marks don't stand in the bodies that this trial writes."""
    places = [place for place in range(len(log)) if log.startswith(MARK, place)]
    return [*places[1:], len(log)]


def value_of(number: int) -> bytes:
    return b"value %d" % number


def filled(program: Path, folder: Path, keys: int) -> None:
    """Has a log hold a record for each of some keys, in order, as a kill leaves it."""
    with Server.keep(program, folder) as server:
        with server.client() as client:
            for number in range(keys):
                client.must(204, "PUT", f"/buckets/t/keys/k{number}", value_of(number))
        server.kill()


@dataclass(frozen=True)
class Begun:
    """What a start has: how many of the keys, from the first on, -1 where one is behind another that isn't there; and what it told."""

    keys: int
    told: list[str]


def begun(program: Path, folder: Path, keys: int) -> Begun:
    with Server.keep(program, folder, 1) as server:
        with server.client() as client:
            answers = client.ask_together([request("GET", f"/buckets/t/keys/k{number}") for number in range(keys)])
        server.kill()
        told = server.told.texts()
    are_there = [(answer.status, answer.body) == (200, value_of(number)) for number, answer in enumerate(answers)]
    are_lacking = [answer.status == 404 for answer in answers]
    count = sum(are_there)
    return Begun(count if all(are_there[:count]) and all(are_lacking[count:]) else -1, told)


@dataclass(frozen=True)
class Damage:
    """What became of a log, and its bytes then."""

    what: str
    log: bytes


def damaged(log: bytes, place: int, chance: random.Random) -> Iterator[Damage]:
    """What may become of a log at a place."""
    front, rest = log[:place], log[place + 1 :]
    yield Damage(f"cut at {place}", front)
    yield Damage(f"cut at {place}, something behind", front + chance.choice(TAILS))
    yield Damage(f"zeros from {place} on", front + bytes(len(log) - place))
    yield Damage(f"a bit changed at {place}", front + bytes([log[place] ^ 1 << chance.randrange(8)]) + rest)
    yield Damage(f"a byte of zero at {place}", front + b"\0" + rest)


@dataclass(frozen=True)
class Newest:
    """A folder whose newest log was never ended, that log's bytes, and where each record of it ends."""

    program: Path
    folder: Path
    log: bytes
    ends: list[int]

    @property
    def keys(self) -> int:
        return len(self.ends)

    def try_start(self, found: Findings, damage: Damage, is_tried_again: bool) -> None:
        """A start from the folder with its log damaged, and maybe one more."""
        ends = [end for end in self.ends if damage.log[:end] == self.log[:end]]
        torn = len(damage.log) - max(ends, default=0)
        what = damage.what
        with kept.copied(self.folder) as copy:
            log = newest_log(copy)
            log.write_bytes(damage.log)
            seen = begun(self.program, copy, self.keys)
            found.hold(seen.keys == len(ends), f"{what}: {seen.keys} keys in place of {len(ends)}")
            told = [f"{log.name}: {torn} bytes cut"] if torn else []
            found.hold(seen.told == told, f"{what}: {seen.told} is told in place of {told}")
            if is_tried_again:
                again = begun(self.program, copy, self.keys)
                found.hold((again.keys, again.told) == (len(ends), []), f"{what}, once more: {again}")


def try_newest(found: Findings, newest: Newest, size: Size, chance: random.Random) -> int:
    """Damages the newest log at some places. Gives in how many ways."""
    log = newest.log
    places = sorted({0, *newest.ends[-3:-1], len(log) - 1, *size.some(len(log), chance)})
    each = [Damage("whole", log), *(Damage("something behind", log + tail) for tail in TAILS)]
    each += [damage for place in places for damage in damaged(log, place, chance)]
    side_by_side(STARTS_AT_ONCE, [partial(newest.try_start, found, damage, chance.random() < TRIED_AGAIN) for damage in each])
    return len(each)


def try_older(found: Findings, newest: Newest, size: Size, chance: random.Random) -> int:
    """Damages a log that a start has ended at some places, and takes a log away from between others. Gives in how many ways."""
    each = damages.Size(at_an_end=2, between=size.places or 0, at_each_below_bytes=2**62 if size.places == ALL else 0)
    with kept.copied(newest.folder) as copy:
        older = newest_log(copy).name
        for _ in range(2):
            begun(newest.program, copy, newest.keys)
        count = damages.try_file(found, newest.program, copy, older, each, chance)
        between = newest_log(copy).with_name(f"log-{int(older.partition('-')[2]) + 1}")
        between.unlink()
        refused = kept.refusal(newest.program, copy)
        found.hold(refused.names(between.name), f"a log is lacking: {refused}")
    return count + 1


def run(program: Path, seed: int, size: Size) -> Result:
    found, chance = Findings(), random.Random(seed)
    with kept.folders(settings=kept.NO_SNAPSHOTS_BY_ITSELF) as folder:
        filled(program, folder, size.keys)
        log = newest_log(folder).read_bytes()
        newest = Newest(program, folder, log, ends_of(log))
        found.hold(newest.keys == size.keys, f"{newest.keys} records of {size.keys} keys")
        starts, refusals = try_newest(found, newest, size, chance), try_older(found, newest, size, chance)
    return found.result(f"{len(log)} bytes: {starts} starts, {refusals} refusals")
