"""What trials of kept stores have in common: starts that are refused, the bytes of a folder, a folder that holds something."""
from __future__ import annotations

import contextlib
import random
import shutil
import subprocess
import tempfile
from collections.abc import Callable, Iterator
from dataclasses import dataclass
from pathlib import Path

from server import AT_A_PORT_OF_THE_SYSTEM, Client, Server

VNODES = 3
SETTINGS = "settings"
THREE_COPIES = b"copies 3\n"
LOCK = "lock"
NUMBER = "incarnation"
NO_SNAPSHOTS_BY_ITSELF = b"snapshot 0\n"
REFUSAL_SECONDS = 10

# A hook that rejects each write, with code 1.
REJECTS = b"RBPF\x01\x01\x00\x00\x80" + bytes(7) + b"\xb7\x00\x00\x00\x01\x01\x00\x00\x95" + bytes(7)


@dataclass(frozen=True)
class Refusal:
    """The status of a start that is refused, None where it isn't, and what was printed."""

    status: int | None
    printed: str

    def names(self, file: str) -> bool:
        """Whether it is told, in a line, that this file is why."""
        return self.status == 1 and self.printed.startswith(f"refused {file}: ") and self.printed.count("\n") == 1


def refusal(program: Path, folder: Path, before: Callable[[], None] | None = None) -> Refusal:
    """How a store doesn't begin."""
    words = [program, "keep", folder, AT_A_PORT_OF_THE_SYSTEM, "1", "1"]
    how = {"stdin": subprocess.DEVNULL, "capture_output": True, "preexec_fn": before}
    try:
        ran = subprocess.run(words, timeout=REFUSAL_SECONDS, **how)
    except subprocess.TimeoutExpired as late:
        return Refusal(None, (late.stdout or b"").decode())
    return Refusal(ran.returncode, ran.stdout.decode())


def contents(folder: Path) -> dict[str, bytes]:
    """The bytes of each file of a folder."""
    return {path.name: path.read_bytes() for path in sorted(folder.iterdir())}


def is_whole_snapshot(line: str | None, records: int | None = None) -> bool:
    """Whether a line tells of a snapshot that is whole, of so many records where that is said."""
    words = (line or "").split()
    is_told = len(words) == 5 and (words[0], words[2], words[4]) == ("snapshot", "keys", "ms")
    return is_told and (records is None or words[1] == str(records))


def loaded_from(program: Path, folder: Path) -> int | None:
    """How many records a copy of a folder starts with."""
    with copied(folder) as copy, Server.keep(program, copy) as server:
        server.stop_in_order()
        return server.loaded


@contextlib.contextmanager
def copied(folder: Path) -> Iterator[Path]:
    """A copy of a folder, beside it for as long as it is needed."""
    with tempfile.TemporaryDirectory(prefix=f"{folder.name}-", dir=folder.parent) as room:
        copy = Path(room, "copy")
        shutil.copytree(folder, copy)
        yield copy


@contextlib.contextmanager
def folders(**files: bytes) -> Iterator[Path]:
    """A folder for a store in a folder of its own, in which copies may lie beside it."""
    with tempfile.TemporaryDirectory(prefix="trial-") as room:
        folder = Path(room, "store")
        folder.mkdir()
        for name, data in files.items():
            (folder / name).write_bytes(data)
        yield folder


def put(server: Server, key: object, value: bytes) -> int:
    """The status of a write."""
    with server.client() as client:
        return client.ask("PUT", f"/buckets/put/keys/{key}", value).status


def fill(program: Path, folder: Path, chance: random.Random, keys: int = 12, starts: int = 2) -> None:
    """Has a folder hold values, siblings, deletes, contexts of several starts, a hook and its binding."""
    for _ in range(starts):
        with Server.keep(program, folder) as server:
            with server.client() as client:
                for number in range(keys):
                    change(client, f"/buckets/b/keys/k{number}", chance)
                client.must(204, "PUT", "/hooks/no", REJECTS)
                client.must(204, "PUT", "/buckets/no/props", b'{"props":{"precommit":"no"}}')
            server.stop_in_order()


def change(client: Client, key: str, chance: random.Random) -> None:
    """Some writes of a key, and maybe a delete."""
    for _ in range(chance.randint(1, 4)):
        context = client.ask("GET", key).context if chance.random() < 0.5 else None
        client.must(204, "PUT", key, chance.randbytes(chance.randint(0, 60)), context)
    if chance.random() < 0.3:
        client.must(204, "DELETE", key, context=client.ask("GET", key).context)
