"""Clients that ask for long answers and take nothing of them: what the server holds for them has a bound, and nobody else waits.

A key has 64 siblings of 65,536 bytes, so that an answer with all of them has 4.2 MB. Clients come that ask for it and read nothing,
until long behind them pings are still answered soon by clients of both workers. Of every second one the system takes 64 KiB, so the
server holds nearly all (`c/narrow.c`); of the others the system takes what it may, which is most. At most 64 MiB and an answer wait at a
worker, in buffers of twice that at the most; beyond it the one that holds most is closed. Once the clients have left, a client that
reads has its answer whole.
"""
from __future__ import annotations

import random
import socket
import time
from dataclasses import dataclass
from pathlib import Path

import kept
from crowd import raise_limit
from server import MIB, Client, Server, request
from trial import Findings, Result, library

NAME = "deaf"
PROMISES = "What clients leave untaken has a bound in memory, whoever they are, and nobody else waits."
QUICK = True


@dataclass(frozen=True)
class Size:
    """How many clients take nothing, for how long, and how slow a ping may be beside them."""

    clients: int
    seconds: float
    slowest_ping_seconds: float


FULL = Size(clients=300, seconds=20.0, slowest_ping_seconds=1.0)
SHORT = Size(clients=80, seconds=2.0, slowest_ping_seconds=3.0)

WORKERS = 2
SIBLINGS = 64
VALUE_BYTES = 65_536
KEY = "/buckets/b/keys/wide"
ALL_SIBLINGS = request("GET", KEY, Accept="multipart/mixed")
ANSWER_BYTES = SIBLINGS * VALUE_BYTES
LIMIT_BYTES_A_WORKER = 64 * MIB
# Buffers hold up to twice what waits. Beyond that: an answer that is being made for each worker, and one that waits.
MOST_BYTES = WORKERS * (2 * LIMIT_BYTES_A_WORKER + 4 * ANSWER_BYTES)
SMALL_BUFFER_BYTES = 4_096
SPARE_FILES = 100
PAUSE_SECONDS = 0.05


def put_siblings(server: Server) -> None:
    with server.client() as client:
        for number in range(SIBLINGS):
            client.must(204, "PUT", KEY, bytes([number]) * VALUE_BYTES)


def deaf_client(server: Server) -> Client:
    """A client that asks for all siblings, and takes nothing, nor does its system take much."""
    client = server.client()
    client.socket.setsockopt(socket.SOL_SOCKET, socket.SO_RCVBUF, SMALL_BUFFER_BYTES)
    client.send(ALL_SIBLINGS)
    return client


def slowest_ping(server: Server, until: float) -> float:
    """The slowest ping of clients of each worker, until a moment."""
    worst = 0.0
    clients = [server.client() for _ in range(2 * WORKERS)]
    while time.monotonic() < until:
        for client in clients:
            begun = time.monotonic()
            if not client.ping():
                raise ValueError("a ping is answered wrongly")
            worst = max(worst, time.monotonic() - begun)
        time.sleep(PAUSE_SECONDS)
    for client in clients:
        client.close()
    return worst


def narrow_in(folder: Path) -> dict[str, str]:
    """What has the system take little of the answers of every second connection."""
    return {"LD_PRELOAD": str(library("narrow.c", folder / "narrow.so"))}


def run(program: Path, seed: int, size: Size) -> Result:
    found = Findings()
    raise_limit(size.clients + SPARE_FILES)
    with kept.folders() as folder, Server.serve(program, WORKERS, environment=narrow_in(folder)) as server:
        put_siblings(server)
        with server.client(ALL_SIBLINGS) as client:
            whole = client.hear()
        server.forget_peak_memory()
        before = server.memory_bytes()
        deaf = [deaf_client(server) for _ in range(size.clients)]
        random.Random(seed).shuffle(deaf)
        worst = slowest_ping(server, time.monotonic() + size.seconds)
        held = server.peak_memory_bytes() - before
        found.hold(held <= MOST_BYTES, f"{size.clients} clients that take nothing hold {held / MIB:.0f} MB of {MOST_BYTES / MIB:.0f}")
        found.hold(worst <= size.slowest_ping_seconds, f"the slowest ping beside them took {worst:.2f} s")
        for client in deaf:
            client.close()
        with server.client(ALL_SIBLINGS) as client:
            found.hold(client.hear().body == whole.body, "who reads has the answer whole")
        end = server.stop()
        found.hold(end is not None and end.is_in_order, f"it stops in order: {end}")
    return found.result(f"{size.clients} clients held {held / MIB:.0f} MB, slowest ping {worst * 1000:.0f} ms")
