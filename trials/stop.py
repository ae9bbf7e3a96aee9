"""Stops a server by a line on its standard input while clients write, and tries what isn't a stop.

Each of three tries has a server of its own.

In order: eight clients write and read in turn, many requests at a time, twenty are idle, and one has sent half a request. A line
that isn't `stop` is said, and then one that is. Each client's bytes have to be whole answers, in order, each read showing what the
write before it stored, and to end as a connection that was closed, not reset; whoever was waiting for answers to what had come must
have had them; nobody connects any more; the server ends with status 0 and `audit ok`, and has told `unknown line` once on standard
error, and nothing else.

At once: a client asks for 64 MB and takes nothing. After `stop` the server waits for it; after a second `stop` it ends, with status
0 and `audit ok`.

No input: standard input is closed, or /dev/null from the start, and the server answers on.
"""
from __future__ import annotations

import random
import subprocess
import threading
import time
from pathlib import Path

from server import PING, PONG, Answer, End, HungUp, Server, request
from trial import Findings, Result, Whole

NAME = "stop"
PROMISES = "A line `stop` answers what was read whole and ends with `audit ok`; no input stops nothing."
QUICK = True
FULL = SHORT = Whole()

WRITERS = 8
IDLE = 20
PAIRS_TOGETHER = 16
PINGS_BEFORE = 100
HALF = request("PUT", "/buckets/b/keys/half", b"half and half")[:-9]
BIG_BYTES = 65_536
BIG_READS = 1_024
CLIENT_SECONDS = 60
END_SECONDS = 60


class Writer(threading.Thread):
    """Writes keys of its own and reads each, many pairs of requests at a time, until its connection ends."""

    def __init__(self, server: Server, number: int):
        super().__init__()
        self.client, self.number = server.client(seconds=CLIENT_SECONDS), number
        self.answers: list[Answer] = []
        self.sent, self.is_closed = 0, False

    def value(self, place: int) -> bytes:
        return f"{self.number}:{place}".encode()

    def pair(self, place: int) -> bytes:
        key = f"/buckets/b/keys/w{self.number}-{place}"
        return request("PUT", key, self.value(place)) + request("GET", key)

    def run(self) -> None:
        try:
            while True:
                self.client.send(b"".join(self.pair(self.sent + more) for more in range(PAIRS_TOGETHER)))
                self.sent += PAIRS_TOGETHER
                while len(self.answers) < 2 * self.sent:
                    self.answers.append(self.client.hear())
        except (HungUp, BrokenPipeError):  # the latter where the server had closed what was sent to
            self.is_closed = True
        except OSError:
            pass

    def is_answered_right(self) -> bool:
        """Whether whole answers came, in order, each read shows what was written, and the connection was closed then."""
        for place, answer in enumerate(self.answers):
            wanted = (204, b"") if place % 2 == 0 else (200, self.value(place // 2))
            if (answer.status, answer.body) != wanted:
                return False
        return self.is_closed and not self.client.come and len(self.answers) <= 2 * self.sent


def try_in_order(found: Findings, program: Path, chance: random.Random) -> int:
    """Tries a stop beside clients. Gives how many answers the writers had."""
    with Server.serve(program) as server:
        writers = [Writer(server, number) for number in range(WRITERS)]
        idle = [server.client() for _ in range(IDLE)]
        found.hold(all(client.ping() for client in idle), "idle clients were answered before")
        half = server.client(HALF)
        for writer in writers:
            writer.start()
        time.sleep(chance.uniform(0.3, 1.5))
        server.say("stopp")
        time.sleep(0.5)
        found.hold(server.is_running, "a line that isn't `stop` stops nothing")
        asked = server.client(PING * PINGS_BEFORE)
        asked.receive()  # once a byte of the answers has come, all that it asked has been read
        begun = time.monotonic()
        server.say("stop")
        for writer in writers:
            writer.join(CLIENT_SECONDS)
        found.hold(all(writer.is_answered_right() for writer in writers), "writers were told whole answers, in order")
        found.hold(asked.read_to_end() == (PONG * PINGS_BEFORE, True), "what had come was answered")
        found.hold(all(client.read_to_end() == (b"", True) for client in [*idle, half]), "the others were closed, and not reset")
        end = server.end(END_SECONDS)
        found.say(f"the server ended {time.monotonic() - begun:.2f} s after the line")
        found.hold(end == End(0, ["audit ok"], ["unknown line"]), f"status 0, audit ok, and the line that wasn't known was told: {end}")
        found.hold(is_refused(server), "nobody connects any more")
    return sum(len(writer.answers) for writer in writers)


def is_refused(server: Server) -> bool:
    try:
        server.client().close()
    except OSError:
        return True
    return False


def try_at_once(found: Findings, program: Path) -> None:
    with Server.serve(program) as server:
        client = server.client()
        client.must(204, "PUT", "/buckets/b/keys/big", bytes(BIG_BYTES))
        client.send_without_waiting(request("GET", "/buckets/b/keys/big") * BIG_READS)
        time.sleep(0.5)
        server.say("stop")
        time.sleep(1)
        found.hold(server.is_running, "a client that takes nothing is waited for")
        begun = time.monotonic()
        end = server.stop(END_SECONDS)
        found.say(f"beside a client that takes nothing it ended {time.monotonic() - begun:.2f} s after the second line")
        found.hold(end == End(0, ["audit ok"], []), f"a second line ends that: {end}")


def try_without_input(found: Findings, program: Path) -> None:
    with Server.serve(program) as server:
        server.process.stdin.close()
        time.sleep(0.5)
        with server.client() as client:
            found.hold(client.ping(), "the end of standard input stops nothing")
    with Server.serve(program, stdin=subprocess.DEVNULL) as server, server.client() as client:
        found.hold(client.ping(), "/dev/null is no input")


def run(program: Path, seed: int, size: Whole) -> Result:
    found = Findings()
    answers = try_in_order(found, program, random.Random(seed))
    try_at_once(found, program)
    try_without_input(found, program)
    return found.result(f"{answers} answers to {WRITERS} writers, all whole")
