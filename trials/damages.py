"""Damages each file of a kept store's folder, and starts it.

Each file is cut at many places, and has many of its bytes changed: the start has to be refused with the file's name and fault, in
one line, status 1, and leave the folder as it is.
"""
from __future__ import annotations

import random
from collections.abc import Iterator
from dataclasses import dataclass
from pathlib import Path

import kept
from trial import Findings, Result, words_of

NAME = "damages"
PROMISES = "A folder with a file cut or changed at any place is refused by that name, and left as it is."
QUICK = True


@dataclass(frozen=True)
class Size:
    """At how many places a file is damaged, at each where it has fewer bytes than is said."""

    at_an_end: int
    between: int
    at_each_below_bytes: int

    def places(self, length: int, chance: random.Random) -> list[int]:
        """Where a file of so many bytes is damaged."""
        if length < self.at_each_below_bytes:
            return list(range(length))
        between = chance.sample(range(length), min(self.between, length))
        return sorted({*range(min(self.at_an_end, length)), *between, *range(max(0, length - self.at_an_end), length)})


FULL = Size(at_an_end=40, between=80, at_each_below_bytes=150)
SHORT = Size(at_an_end=2, between=10, at_each_below_bytes=0)


def damages(data: bytes, places: list[int], chance: random.Random) -> Iterator[tuple[str, bytes]]:
    """What a file may have become: cut, or with a bit of a byte changed."""
    for place in places:
        changed = bytes([data[place] ^ 1 << chance.randrange(8)])
        yield f"cut at {place}", data[:place]
        yield f"changed at {place}", data[:place] + changed + data[place + 1 :]


def try_file(found: Findings, program: Path, folder: Path, name: str, size: Size, chance: random.Random) -> int:
    """Damages a file of a folder, and puts it back. Gives how many damages there were."""
    whole, count = kept.contents(folder), 0
    for what, data in damages(whole[name], size.places(len(whole[name]), chance), chance):
        (folder / name).write_bytes(data)
        refusal = kept.refusal(program, folder)
        found.hold(refusal.names(name), f"{name} {what}: {words_of(refusal)}")
        found.hold(kept.contents(folder) == {**whole, name: data}, f"{name} {what}: the folder was changed")
        count += 1
    (folder / name).write_bytes(whole[name])
    return count


def run(program: Path, seed: int, size: Size) -> Result:
    found, chance = Findings(), random.Random(seed)
    with kept.folders() as folder:
        kept.fill(program, folder, chance)
        names = [name for name in kept.contents(folder) if name != kept.LOCK]
        count = sum(try_file(found, program, folder, name, size, chance) for name in names)
    return found.result(f"{count} damages of {len(names)} files")
