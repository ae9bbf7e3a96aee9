"""Folders that are begun with more copies of each key, or fewer, than they were written with.

A store is kept with three copies: keys with values, siblings, deletes and contexts of several starts. Then the file of one vnode is put
back to an earlier moment, so it lacks what came since. The folder is begun with each number of copies in turn, by the line `copies N` of
its settings. Each time every key has to show what it showed before, properties have to tell that number, and each key is written with the
context that came, which has to supersede what was shown. At the end each file has the keys that stand at its vnode, and no other: with
one copy all three together have each key once.
"""
from __future__ import annotations

import json
import random
from dataclasses import dataclass
from pathlib import Path

import kept
from server import Client, Server
from trial import Findings, Result

NAME = "copies"
PROMISES = "A folder goes on with another number of copies, and each key shows what it did."
QUICK = True


@dataclass(frozen=True)
class Size:
    """How many keys there are, and the numbers of copies with which the folder is begun, one after another."""

    keys: int
    copies: tuple


FULL, SHORT = Size(keys=20_000, copies=(1, 3, 2, 1, 1, 2, 3, 1)), Size(keys=300, copies=(1, 3, 2, 1))

OLD_FILE = "vnode-1.records"


def settings(copies: int) -> bytes:
    return kept.NO_SNAPSHOTS_BY_ITSELF + b"copies %d\n" % copies


def path(number: int) -> str:
    return f"/buckets/b/keys/k{number}"


def shown(client: Client, number: int) -> tuple[int, list[bytes], str | None]:
    """What a read of a key shows: its status, its siblings' tags in order or its value, and its context."""
    answer = client.ask("GET", path(number))
    lines = sorted(answer.body.splitlines()) if answer.status == 300 else [answer.body]
    return answer.status, lines, answer.context


def all_shown(client: Client, keys: int) -> list[tuple[int, list[bytes], str | None]]:
    return [shown(client, number) for number in range(keys)]


def write(program: Path, folder: Path, chance: random.Random, keys: int) -> None:
    """Changes keys of a store that is kept with three copies."""
    with Server.keep(program, folder) as server:
        with server.client() as client:
            for number in range(keys):
                kept.change(client, path(number), chance)
        server.stop_in_order()


def begin(program: Path, folder: Path, copies: int, before: list, found: Findings) -> list:
    """Begins with so many copies, compares what is shown, and writes each key once more. Gives what is shown then."""
    (folder / kept.SETTINGS).write_bytes(settings(copies))
    with Server.keep(program, folder) as server:
        with server.client() as client:
            props = json.loads(client.ask("GET", "/buckets/b/props").body)["props"]
            found.hold(props["n_val"] == copies, f"{copies} copies: n_val is {props['n_val']}")
            now = all_shown(client, len(before))
            wrong = sum(one != other for one, other in zip(before, now))
            found.hold(wrong == 0, f"{copies} copies: {wrong} of {len(before)} keys show something else")
            for number, (_, _, context) in enumerate(now):
                client.must(204, "PUT", path(number), b"%d %d" % (copies, number), context)
            after = all_shown(client, len(before))
            left = sum((status, body) != (200, [b"%d %d" % (copies, number)]) for number, (status, body, _) in enumerate(after))
            found.hold(left == 0, f"{copies} copies: of {left} keys more is left than what was written last")
        server.stop_in_order()
    return after


def run(program: Path, seed: int, size: Size) -> Result:
    found, chance = Findings(), random.Random(seed)
    with kept.folders(settings=settings(3)) as folder:
        write(program, folder, chance, size.keys)
        old = (folder / OLD_FILE).read_bytes()
        write(program, folder, chance, size.keys)
        with kept.copied(folder) as whole, Server.keep(program, whole) as server:
            with server.client() as client:
                now = all_shown(client, size.keys)
            server.stop_in_order()
        (folder / OLD_FILE).write_bytes(old)
        for copies in size.copies:
            now = begin(program, folder, copies, now, found)
            kept_keys = kept.loaded_from(program, folder)
            found.hold(kept_keys == copies * size.keys, f"{copies} copies: {kept_keys} records in place of {copies * size.keys}")
    return found.result(f"{size.keys} keys, {len(size.copies)} starts with {min(size.copies)} to {max(size.copies)} copies")
