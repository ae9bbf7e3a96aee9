"""Writes of a kept store on a device that gets full: a small file system in memory, which only root may mount.

Some clients put keys one after another, until one of them isn't acknowledged within a second: it waits for the log, or is refused by
503. It is told that the log can't be written. Clients of other workers read what was acknowledged. Then either there is room again: who
waited is answered, others write, and a kill loses nothing that was acknowledged. Or the server is killed on the full device: a start
there is refused in a line or has all of it, and once there is room a start has all of it.
"""
from __future__ import annotations

import contextlib
import random
import subprocess
import time
from collections.abc import Iterator
from dataclasses import dataclass, field
from pathlib import Path

import kept
from full_device import ROOMY, small_device
from server import Client, NoStart, Server, request
from trial import Findings, Result, Whole

NAME = "full_log"
PROMISES = "Writes wait or are refused on a full device, reads go on; with room again nothing is lost."
QUICK = True
FULL = SHORT = Whole()

WORKERS, CLIENTS = 4, 12
VALUE_BYTES = 4_000
MOST_KEYS = 400
WAIT_SECONDS, TOLD_SECONDS, BACK_SECONDS = 1.0, 2.0, 60.0
AGAIN_SECONDS = 0.2
REFUSED_FOR_NOW = 503
# Who waits holds up the clients of its own worker. Of the other workers' clients one at least is served.
LEAST_READ = 1


@dataclass
class Store:
    """Clients of a server, what of theirs was acknowledged, and who waits with what."""

    server: Server
    clients: list[Client]
    chance: random.Random
    values: dict[str, bytes] = field(default_factory=dict)
    waiting: list[tuple[Client, str, bytes]] = field(default_factory=list)

    def put(self, client: Client, key: str, value: bytes, seconds: float) -> bool:
        """Whether a write is acknowledged so soon. Who isn't answered waits, where something is told: else the machine is slow."""
        client.socket.settimeout(seconds)
        try:
            status = client.ask("PUT", f"/buckets/b/keys/{key}", value).status
        except TimeoutError:
            if self.server.told.at(0, TOLD_SECONDS) is not None:
                self.waiting.append((client, key, value))
                return False
            client.socket.settimeout(BACK_SECONDS)
            status = client.hear().status
        return self.note(key, value, status)

    def note(self, key: str, value: bytes, status: int) -> bool:
        if status == 204:
            self.values[key] = value
        elif status != REFUSED_FOR_NOW:
            raise ValueError(f"a write of {key}: {status}")
        return status == 204

    def put_until_full(self) -> bool:
        """Whether a write isn't acknowledged."""
        return not all(
            self.put(self.clients[place % CLIENTS], f"k{place}", self.chance.randbytes(VALUE_BYTES), WAIT_SECONDS)
            for place in range(MOST_KEYS)
        )

    def read_by_others(self) -> int:
        """How many clients of those that don't wait are shown what was acknowledged."""
        key, value = next(iter(self.values.items()))
        others = [client for client in self.clients if client not in [one for one, _, _ in self.waiting]]
        shown = 0
        for client in others:
            client.socket.settimeout(WAIT_SECONDS)
            with contextlib.suppress(TimeoutError):
                shown += client.ask("GET", f"/buckets/b/keys/{key}").body == value
        return shown

    def hear_those_that_wait(self) -> None:
        for client, key, value in self.waiting:
            client.socket.settimeout(BACK_SECONDS)
            self.note(key, value, client.hear().status)

    def put_again(self) -> bool:
        """Whether another client's write is acknowledged in the end."""
        until = time.monotonic() + BACK_SECONDS
        with self.server.client() as client:
            while time.monotonic() < until:
                if self.put(client, "behind", b"behind", BACK_SECONDS):
                    return True
                time.sleep(AGAIN_SECONDS)
        return False


@contextlib.contextmanager
def filled(found: Findings, program: Path, folder: Path, chance: random.Random) -> Iterator[Store]:
    """A store on a device that it has filled, which is killed at the end."""
    (folder / kept.SETTINGS).write_bytes(kept.NO_SNAPSHOTS_BY_ITSELF)
    with contextlib.ExitStack() as stack:
        server = stack.enter_context(Server.keep(program, folder, WORKERS))
        store = Store(server, [stack.enter_context(server.client()) for _ in range(CLIENTS)], chance)
        found.hold(store.put_until_full(), f"none of {MOST_KEYS} writes waits or is refused")
        line = server.told.at(0, BACK_SECONDS) or ""
        found.hold(line.startswith("log-") and line.endswith(": unwritten"), f"what is told first: {line}")
        yield store
        server.kill()


def try_start(found: Findings, program: Path, folder: Path, values: dict[str, bytes], may_be_refused: bool, what: str) -> None:
    """A start has all these values, or is refused in a line where that may be."""
    try:
        server = Server.keep(program, folder)
    except NoStart as refused:
        is_told = len(refused.printed) == 1 and refused.printed[0].startswith("refused ")
        found.hold(may_be_refused and is_told, f"{what}: {refused}")
        return
    with server:
        with server.client() as client:
            answers = client.ask_together([request("GET", f"/buckets/b/keys/{key}") for key in values])
        server.kill()
    lost = [key for key, answer in zip(values, answers) if answer.body != values[key]]
    found.hold(not lost, f"{what}: {len(lost)} of {len(values)} are lost, as {lost[:5]}")


def make_room(folder: Path) -> None:
    subprocess.run(["mount", "-o", f"remount,{ROOMY}", folder], check=True)


def try_room_again(found: Findings, program: Path, chance: random.Random) -> int:
    """A device that gets full and has room again. Gives how many writes were acknowledged."""
    with kept.folders() as folder, small_device(folder):
        with filled(found, program, folder, chance) as store:
            read = store.read_by_others()
            found.hold(read >= LEAST_READ, f"{read} clients of {CLIENTS} read on a full device")
            make_room(folder)
            store.hear_those_that_wait()
            found.hold(store.put_again(), "no write is acknowledged though there is room again")
        try_start(found, program, folder, store.values, False, "killed with room again")
    return len(store.values)


def try_kill_on_full(found: Findings, program: Path, chance: random.Random) -> int:
    """A server that is killed on a full device. Gives how many writes were acknowledged."""
    with kept.folders() as folder, small_device(folder):
        with filled(found, program, folder, chance) as store:
            pass
        try_start(found, program, folder, store.values, True, "a start on the full device")
        make_room(folder)
        try_start(found, program, folder, store.values, False, "a start with room again")
    return len(store.values)


def run(program: Path, seed: int, size: Whole) -> Result:
    found, chance = Findings(), random.Random(seed)
    counts = try_room_again(found, program, chance), try_kill_on_full(found, program, chance)
    return found.result(f"full at {counts[0]} and {counts[1]} writes")
