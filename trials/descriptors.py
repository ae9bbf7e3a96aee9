"""Takes descriptors away from a server and gives them back: every client is answered in the end, and the server goes on.

What files it may have open is lowered to what it has, clients connect for some seconds, and the files are given back. Each client
that waited has to be answered within three seconds then, and so has each later one. The first failure of a row is told on standard
error, and at most one line for each worker.
"""
from __future__ import annotations

import random
import resource
import time
from dataclasses import dataclass
from pathlib import Path

from server import LAST_PING, Client, Server
from trial import Findings, Result

NAME = "descriptors"
PROMISES = "Without descriptors a server goes on, and once they are back all are answered within 3 s."
QUICK = True


@dataclass(frozen=True)
class Size:
    """How soon each client has to be answered once files are back."""

    answer_seconds: float


# The short form allows for a machine that has much else to do.
FULL, SHORT = Size(answer_seconds=3.0), Size(answer_seconds=10.0)

WORKERS = 2
MOST_CLIENTS = 12
WITHOUT_FILES_SECONDS = 3


def is_answered(client: Client, seconds: float) -> bool:
    """Whether a client gets its answer in time."""
    client.socket.settimeout(seconds)
    try:
        return client.hear().is_pong
    except (TimeoutError, ConnectionError):
        return False
    finally:
        client.close()


def asking(server: Server, count: int) -> list[Client]:
    return [server.client(LAST_PING) for _ in range(count)]


def run(program: Path, seed: int, size: Size) -> Result:
    found, count = Findings(), random.Random(seed).randint(WORKERS + 1, MOST_CLIENTS)
    with Server.serve(program, WORKERS) as server:
        server.wait_until_it_answers()
        _, most = limits = resource.prlimit(server.pid, resource.RLIMIT_NOFILE)
        resource.prlimit(server.pid, resource.RLIMIT_NOFILE, (server.open_files(), most))
        waiting = asking(server, count)
        time.sleep(WITHOUT_FILES_SECONDS)
        if not found.hold(server.is_running, "the server goes on without files"):
            return found.result("the server ended")
        resource.prlimit(server.pid, resource.RLIMIT_NOFILE, limits)
        answered = sum(is_answered(client, size.answer_seconds) for client in waiting)
        later = sum(is_answered(client, size.answer_seconds) for client in asking(server, count))
        found.hold(answered == count, f"{answered} of {count} clients that waited are answered")
        found.hold(later == count, f"{later} of {count} later clients are answered")
        server.kill()
        told = server.told.texts()
        found.hold(1 <= len(told) <= WORKERS, f"what is told on standard error: {told}")
    return found.result(f"{count} clients that waited, {count} later ones, {len(told)} lines told")
