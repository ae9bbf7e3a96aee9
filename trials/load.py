"""The client in C that asks a store, etcd or redis as fast as it is answered, and servers of etcd and redis beside this store's."""
from __future__ import annotations

import contextlib
import random
import socket
import subprocess
import time
import urllib.error
import urllib.request
from collections.abc import Iterator
from dataclasses import dataclass
from pathlib import Path

from server import HOST, free_port
from trial import compiled, tool

# Folders there lie in memory.
IN_MEMORY = "/dev/shm"
PATIENCE_SECONDS = 60
FIRST_BUCKET = 0
STRIDES = (7_841, 7_853, 7_867, 7_873, 7_877, 7_879, 7_883, 7_901, 7_907, 7_919)  # primes
START_SECONDS = 30


@dataclass(frozen=True)
class Rate:
    """Requests a second, and the microseconds in which half of all answers, and 99 of 100, came."""

    a_second: float
    middle_us: float
    slow_us: float


class Asker:
    """The client `c/asker.c`, which asks for keys in an order that the seed scatters."""

    def __init__(self, folder: Path, seed: int):
        self.program = compiled("asker.c", folder / "asker")
        self.stride = random.Random(seed).choice(STRIDES)

    def ask(
        self, who: str, port: int, method: str, seconds: float, *, connections: int, threads: int = 2, together: int = 1, keys: int = 0
    ) -> Rate:
        """Asks `store`, `etcd` or `redis`. Where a number of keys is said, so many are written once, or read in turn."""
        numbers = (port, connections, seconds, min(connections, threads), FIRST_BUCKET, together, keys, self.stride)
        words = [self.program, who, method, *map(str, numbers)]
        asked = subprocess.run(words, capture_output=True, text=True, timeout=seconds + PATIENCE_SECONDS)
        if asked.returncode:
            raise ValueError(f"{who} {method}: {asked.stderr}")
        return Rate(*map(float, asked.stdout.split()))


@contextlib.contextmanager
def running(words: list[str], is_up: str, port: int) -> Iterator[subprocess.Popen]:
    """A process that is killed at the end, once it takes connections, or answers at a URL."""
    with subprocess.Popen(words, stdout=subprocess.DEVNULL, stderr=subprocess.DEVNULL) as process:
        try:
            wait_for(process, is_up, port)
            yield process
        finally:
            process.kill()


def wait_for(process: subprocess.Popen, url: str, port: int) -> None:
    until = time.monotonic() + START_SECONDS
    while True:
        try:
            socket.create_connection((HOST, port), timeout=5).close()
            if url:
                urllib.request.urlopen(url, timeout=5).read()
            return
        except (OSError, urllib.error.URLError) as error:
            if process.poll() is not None or time.monotonic() > until:
                raise ValueError(f"{process.args[0]} doesn't answer: {error}") from error
            time.sleep(0.1)


@contextlib.contextmanager
def redis(folder: Path, forced: str = "") -> Iterator[tuple[int, int]]:
    """The port and the process number of a redis that saves nothing, or has a log that is forced `always`, `everysec` or `no`."""
    port = free_port()
    words = [tool("redis-server"), "--port", str(port), "--bind", HOST, "--dir", str(folder), "--save", ""]
    words += ["--appendonly", "yes", "--appendfsync", forced] if forced else ["--appendonly", "no"]
    with running(words, "", port) as process:
        yield port, process.pid


@contextlib.contextmanager
def etcd(folder: Path) -> Iterator[int]:
    """The port of an etcd whose data lie in a folder, with its interface of version 2."""
    port, peers_port = free_port(), free_port()
    here, peers = f"http://{HOST}:{port}", f"http://{HOST}:{peers_port}"
    words = [tool("etcd"), "--data-dir", f"{folder}/etcd", "--enable-v2=true", "--log-level", "error"]
    words += ["--listen-client-urls", here, "--advertise-client-urls", here]
    words += ["--listen-peer-urls", peers, "--initial-advertise-peer-urls", peers, "--initial-cluster", f"default={peers}"]
    with running(words, f"{here}/v2/keys/", port):
        yield port
