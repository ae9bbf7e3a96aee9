"""A server that may have no thread: all that it does it does on the one that it begins with.

As root the server is started by a user that may have one process or thread, with three workers: with a count of connections, and
without. Clients write and read; with the count they leave then, and without it the server is told to stop. Each has to be answered,
and the server to end with status 0 and `audit ok`. A store that is kept is started so, too, from an empty folder and from one that
holds a write; what was written has to be there at the next start.
"""
from __future__ import annotations

import os
import random
import resource
import shutil
import tempfile
from pathlib import Path

from server import End, Server, request
from trial import Findings, Result, Skipped, Whole

NAME = "alone"
PROMISES = "A server that may have no thread answers all its clients on one, and ends in order."
QUICK = True
FULL = SHORT = Whole()

WORKERS = 3
CLIENTS = 3
KEY = "/buckets/b/keys/k"
MOST_BYTES = 2_000
FIRST_FREE_USER = 2_000_000_000
END_SECONDS = 60


def have_no_thread() -> None:
    """Makes the process that of a user who has no other, and may have none."""
    user = FIRST_FREE_USER + os.getpid()
    os.setgid(user)
    os.setuid(user)
    resource.setrlimit(resource.RLIMIT_NPROC, (1, 1))


def try_count(found: Findings, program: Path, chance: random.Random, count: int | None) -> None:
    """Tries a server that ends by itself after so many connections, or by being told."""
    what = "without a count" if count is None else f"with a count of {count}"
    with Server.serve(program, WORKERS, count, before=have_no_thread) as server:
        write = request("PUT", KEY, chance.randbytes(chance.randint(1, MOST_BYTES)))
        clients = [server.client(write) for _ in range(CLIENTS)]
        found.hold(all(client.hear().status == 204 for client in clients), f"{what}: each write is answered")
        found.hold(len(server.threads()) == 1, f"{what}: one thread, and not {len(server.threads())}")
        found.hold(all(client.ping() for client in clients), f"{what}: each ping is answered")
        if count is None:
            server.say("stop")
        else:
            for client in clients:
                client.close()
        end = server.end(END_SECONDS)
        found.hold(end == End(0, ["audit ok"], []), f"{what}: it ends in order: {end}")


def try_kept(found: Findings, program: Path, folder: Path, chance: random.Random) -> None:
    """Tries a store that is kept, each time by another user, who has to be let to its files."""
    value = None
    for what in ("an empty folder", "a folder that holds a write"):
        os.chmod(folder, 0o777)
        for file in folder.iterdir():
            os.chmod(file, 0o666)
        with Server.keep(program, folder, WORKERS, before=have_no_thread) as server:
            with server.client() as client:
                if value is not None:
                    found.hold(client.ask("GET", KEY).body == value, f"{what}: what was written is read")
                value = chance.randbytes(chance.randint(1, MOST_BYTES))
                client.must(204, "PUT", KEY, value, client.ask("GET", KEY).context)
            found.hold(len(server.threads()) == 1, f"{what}: one thread, and not {len(server.threads())}")
            end = server.stop(END_SECONDS)
            is_kept = end is not None and end.is_in_order and end.printed[0].startswith("kept ")
            found.hold(is_kept, f"{what}: it ends in order, and all is kept: {end}")


def run(program: Path, seed: int, size: Whole) -> Result:
    if os.geteuid():
        raise Skipped("not root")
    found, chance = Findings(), random.Random(seed)
    with tempfile.TemporaryDirectory() as folder:
        os.chmod(folder, 0o755)
        readable = shutil.copy(program, folder)
        for count in (None, CLIENTS):
            try_count(found, readable, chance, count)
        store = Path(folder, "store")
        store.mkdir()
        try_kept(found, readable, store, chance)
    return found.result(f"{2 * CLIENTS + 2} clients of 4 servers of one thread")
