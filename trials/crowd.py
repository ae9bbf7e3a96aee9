"""A crowd on two workers: many connections that are idle, busy ones that don't notice, and strangers who do ill.

Ten thousand connections ask once and then stay, and the resident bytes that each takes are told. A hundred others write and read
without end. A process of its own asks for `/ping` every 10 milliseconds, in turn on a connection that it keeps and on a new one,
and tells its slowest answer. Then strangers come, 300 of each kind: heads that come by the byte, halves of bodies, connections that
are reset, and clients that ask for much, many requests at a time, and read nothing; they leave and come once more.

Every answer has to be right, no ping slower than is said, nobody who is idle let go; each idle connection takes at most 2,048
resident bytes, all of the system's and the program's that are counted as the process's; no open file is left, and the second coming
of the strangers takes less than 4 MB.

It needs as many open files as it has connections, and raises its own limit and the server's where it may.
"""
from __future__ import annotations

import dataclasses
import multiprocessing
import random
import resource
import selectors
import threading
import time
from collections.abc import Callable
from dataclasses import dataclass
from pathlib import Path

from server import PING, Answer, Client, Server, request
from strangers import BIG, put_big, reads_nothing
from trial import Findings, Result, Skipped

NAME = "crowd"
PROMISES = "Pings are answered soon beside many idle clients, busy ones and strangers who do ill."
QUICK = True

WORKERS = 2
VALUE = b"v" * 100
HEAD = b"PUT /buckets/b/keys/slow HTTP/1.1\r\nHost: h\r\nX-Slow: " + b"x" * 200
HALF_A_BODY = request("PUT", "/buckets/b/keys/half", bytes(60_000))[:-30_000]
MUCH = BIG * 256 + PING * 10_000
RESET_BEHIND = (b"", HEAD[:50], PING)
RESETS_TOGETHER = 10
PING_EVERY_SECONDS = 0.01
SETTLE_SECONDS = 2.0
PATIENCE_SECONDS = 60
SPARE_FILES = 200
GREETED_TOGETHER = 100

MOST_IDLE_BYTES = 2_048
MOST_LOST_BYTES = 4_000_000
STORED_BYTES_AN_ANSWER = 700


@dataclass(frozen=True)
class Size:
    """How many come, how long each spell takes, and how slow a ping may be. Of few connections none is weighed."""

    idle: int
    busy: int
    strangers: int
    spell_seconds: float
    slowest_ping_seconds: float
    is_weighed: bool = True

    def open_files(self) -> int:
        return self.idle + self.busy + 5 * self.strangers + SPARE_FILES


FULL = Size(idle=10_000, busy=100, strangers=300, spell_seconds=5.0, slowest_ping_seconds=0.1)
# Where the machine has much else to do, a ping waits for a processor.
SHORT = Size(idle=500, busy=20, strangers=30, spell_seconds=1.5, slowest_ping_seconds=1.0, is_weighed=False)


class Prober:
    """Asks for pings at a steady pace, by a process of its own."""

    def __init__(self, server: Server):
        forking = multiprocessing.get_context("fork")
        self.slowest, self.wrong, self.count = forking.Value("d", 0.0), forking.Value("i", 0), forking.Value("i", 0)
        self.process = forking.Process(target=self.run, args=(server.address,), daemon=True)
        self.process.start()

    def run(self, address: tuple[str, int]) -> None:
        kept, is_new = Client(address), False
        while True:
            begun = time.monotonic()
            client = Client(address) if is_new else kept
            self.wrong.value += not client.ping()
            self.slowest.value = max(self.slowest.value, time.monotonic() - begun)
            self.count.value += 1
            if is_new:
                client.close()
            is_new = not is_new
            time.sleep(PING_EVERY_SECONDS)

    def take(self) -> tuple[float, int]:
        """The slowest answer since it was last asked, in seconds, and how many there were."""
        told = self.slowest.value, self.count.value
        self.slowest.value, self.count.value = 0.0, 0
        return told

    def end(self) -> None:
        self.process.terminate()
        self.process.join()


@dataclass
class BusyClient:
    """A client that writes a key and reads it, and then the next one."""

    client: Client
    number: int
    turn: int = 0

    def ask(self) -> None:
        key = f"/buckets/busy/keys/k{self.number}-{self.turn // 2}"
        self.client.send(request("PUT", key, VALUE) if self.turn % 2 == 0 else request("GET", key))

    def is_right(self, answer: Answer) -> bool:
        return (answer.status, answer.body) == ((204, b"") if self.turn % 2 == 0 else (200, VALUE))


class Busy(threading.Thread):
    """Clients that each write and read keys of their own in turn, until told to end. Answers are counted, and those that are wrong."""

    def __init__(self, server: Server, count: int):
        super().__init__(daemon=True)
        self.is_over, self.answers, self.wrong = False, 0, 0
        self.choices = selectors.DefaultSelector()
        self.clients = [BusyClient(server.client(), number) for number in range(count)]
        for busy in self.clients:
            self.choices.register(busy.client.socket, selectors.EVENT_READ, busy)
            busy.ask()

    def run(self) -> None:
        while not self.is_over:
            for key, _ in self.choices.select(0.1):
                try:
                    self.hear(key.data)
                except (OSError, ValueError):
                    self.wrong += 1
                    self.choices.unregister(key.fileobj)

    def hear(self, busy: BusyClient) -> None:
        busy.client.receive()
        answer = busy.client.whole_answer()
        if answer is not None:
            self.wrong += not busy.is_right(answer)
            self.answers += 1
            busy.turn += 1
            busy.ask()

    def end(self) -> None:
        self.is_over = True
        self.join()
        self.choices.close()


def come_and_go(server: Server, size: Size, chance: random.Random) -> None:
    """So many strangers of each kind come, stay for some seconds, and leave."""
    slow = [server.client() for _ in range(size.strangers)]
    half = [server.client(HALF_A_BODY) for _ in range(size.strangers)]
    deaf = [reads_nothing(server, MUCH) for _ in range(size.strangers)]
    until = time.monotonic() + size.spell_seconds
    for place in range(len(HEAD)):
        for client in slow:
            client.send(HEAD[place : place + 1])
        for _ in range(RESETS_TOGETHER):
            server.client(chance.choice(RESET_BEHIND)).reset()
        if time.monotonic() > until:
            break
    time.sleep(max(0.0, until - time.monotonic()))
    for client in slow + half + deaf:
        client.close()


@dataclass
class Crowd:
    """A server, who is at it, and what is found."""

    found: Findings
    server: Server
    size: Size
    idle: list[Client] = dataclasses.field(default_factory=list)
    slowest: float = 0.0

    def greet(self) -> None:
        """Has the idle ones connect and ask once, and weighs them."""
        before = self.server.memory_bytes()
        while len(self.idle) < self.size.idle:
            group = [self.server.client(PING) for _ in range(GREETED_TOGETHER)]
            self.found.hold(all(client.hear().is_pong for client in group), "each connection is answered")
            self.idle += group
        each = (self.server.memory_bytes() - before) / len(self.idle)
        self.found.say(f"an idle connection takes {each:.0f} resident bytes")
        if self.size.is_weighed:
            self.found.hold(each <= MOST_IDLE_BYTES, f"an idle connection is small, and not {each:.0f} bytes")

    def beside(self, name: str, prober: Prober, busy: Busy, work: Callable[[], None]) -> None:
        """Whether nobody noticed what was done meanwhile."""
        answers, begun = busy.answers, time.monotonic()
        work()
        rate = (busy.answers - answers) / (time.monotonic() - begun)
        slowest, count = prober.take()
        self.slowest = max(self.slowest, slowest)
        self.found.say(f"{name}: {count} pings, the slowest took {slowest * 1000:.1f} ms; the busy ones had {rate:.0f} answers a second")
        most = self.size.slowest_ping_seconds
        is_soon = count > 0 and slowest <= most
        self.found.hold(is_soon, f"no ping took more than {most * 1000:.0f} ms beside {name}, and not {slowest * 1000:.0f}")

    def spells(self, chance: random.Random) -> Busy:
        """The spells of idle ones, and of strangers twice."""
        busy, prober = Busy(self.server, self.size.busy), Prober(self.server)
        busy.start()
        time.sleep(1)
        prober.take()
        self.beside("idle ones", prober, busy, lambda: time.sleep(self.size.spell_seconds))
        self.beside("strangers", prober, busy, lambda: come_and_go(self.server, self.size, chance))
        time.sleep(SETTLE_SECONDS)
        prober.take()
        once, answers = self.server.memory_bytes(), busy.answers
        self.beside("strangers once more", prober, busy, lambda: come_and_go(self.server, self.size, chance))
        time.sleep(SETTLE_SECONDS)
        grown, stored = self.server.memory_bytes() - once, (busy.answers - answers) * STORED_BYTES_AN_ANSWER
        self.found.say(f"the second coming took {grown / 1e6:.1f} MB, at most {stored / 1e6:.1f} of them what the busy ones stored")
        self.found.hold(grown - stored < MOST_LOST_BYTES, f"no memory is lost: {grown / 1e6:.1f} MB")
        prober.end()
        busy.end()
        self.found.hold(busy.wrong == 0 and prober.wrong.value == 0, "every answer was right")
        return busy


def raise_limit(wanted: int) -> None:
    """Lets this process, and those that it starts, have so many open files."""
    soft, hard = resource.getrlimit(resource.RLIMIT_NOFILE)
    if soft >= wanted:
        return
    if hard < wanted:
        raise Skipped(f"no right to {wanted} open files")
    resource.setrlimit(resource.RLIMIT_NOFILE, (wanted, hard))


def warm_up(server: Server) -> int:
    """Has the server do each kind of thing once. Gives how many files it has open then."""
    put_big(server)
    for client in [server.client(PING) for _ in range(50)]:
        client.hear()
        client.close()
    time.sleep(SETTLE_SECONDS)
    return server.open_files()


def run(program: Path, seed: int, size: Size) -> Result:
    found = Findings()
    raise_limit(size.open_files())
    with Server.serve(program, WORKERS) as server:
        files = warm_up(server)
        crowd = Crowd(found, server, size)
        crowd.greet()
        busy = crowd.spells(random.Random(seed))
        for client in crowd.idle:
            client.send(PING)
        found.hold(all(client.hear().is_pong for client in crowd.idle), "the idle ones are answered still")
        for client in crowd.idle + [one.client for one in busy.clients]:
            client.close()
        after = server.settled_files(files)
        found.hold(after == files, f"open files: {files} and {after}")
        end = server.stop(PATIENCE_SECONDS)
        found.hold(end is not None and end.is_in_order, f"it stops in order: {end}")
    return found.result(f"{size.idle} idle, slowest ping {crowd.slowest * 1000:.1f} ms")
