"""Clients that write keys, alone and several together, and what has to stand under a key once a store has ended in whatever way.

What has to stand there is judged by the tags of writes and by the contexts that they were written with. Of a write that has to be there
its tag is counted by the key's context, and its value stands there, or a write has seen it that is there or that nobody knows of. What
stands there was written, and nothing has seen it that has to be there.
"""
from __future__ import annotations

import random
import threading
import time
from collections.abc import Callable, Iterable
from dataclasses import dataclass, field

from server import Answer, Client, Server, entries_of, request

BUCKET = "/buckets/w/keys"
PARTS = {"Accept": "multipart/mixed"}
REFUSALS = (409, 412, 503)
MOST_SIBLINGS = 5
MOST_PIPED = 12
MOST_QUOTED_BYTES = 3_000

# How many writes of each vnode a context counts.
Counts = dict[int, int]


def counts_of(context: str | None) -> Counts:
    return {entry.vnode: entry.count for entry in entries_of(context)} if context else {}


def has(counts: Counts, tag: str) -> bool:
    """Whether a context counts the write with a tag."""
    vnode, count = map(int, tag.split("-"))
    return counts.get(vnode, 0) >= count


@dataclass(frozen=True)
class Shown:
    """What a read shows of a key: the values by their tags, None for a tombstone, and the context. A single tombstone isn't shown."""

    siblings: dict[str, bytes | None]
    context: str | None

    @property
    def counts(self) -> Counts:
        return counts_of(self.context)


def shown_in(answer: Answer) -> Shown:
    if answer.status == 404:
        return Shown({}, answer.context)
    if answer.status == 200:
        return Shown({answer.heads["etag"].strip('"'): answer.body}, answer.context)
    if answer.status != 300:
        raise ValueError(f"a read: {answer.status} {answer.body[:80]!r}")
    boundary = answer.heads["content-type"].partition("boundary=")[2].encode()
    parts = answer.body.split(b"\r\n--" + boundary)[1:-1]
    return Shown(dict(map(sibling_in, parts)), answer.context)


def sibling_in(part: bytes) -> tuple[str, bytes | None]:
    head, _, body = part.partition(b"\r\n\r\n")
    lines = head.decode().lower().split("\r\n")
    tag = next(line.partition(": ")[2] for line in lines if line.startswith("x-riak-tag: "))
    return tag, None if "x-riak-deleted: true" in lines else body


def read_request(key: str) -> bytes:
    return request("GET", f"{BUCKET}/{key}", **PARTS)


@dataclass(eq=False)
class Write:
    """A write: the value, None for a tombstone, what its context counts, and which request of which connection it was, if of any."""

    key: str
    value: bytes | None
    seen: Counts = field(default_factory=dict)
    connection: tuple[int, int] | None = None
    number: int = 0
    tag: str | None = None

    def has_seen(self, tag: str) -> bool:
        return has(self.seen, tag)


@dataclass
class Known:
    """What is known of a key: the writes that were sent and not refused, and what its context counted when a store began."""

    writes: list[Write] = field(default_factory=list)
    least: Counts = field(default_factory=dict)

    def begin_with(self, shown: Shown) -> None:
        """A store begins with what is shown."""
        self.writes = [Write("", value, tag=tag) for tag, value in shown.siblings.items()]
        self.least = shown.counts

    def faults(self, shown: Shown, must: Callable[[Write], bool]) -> list[str]:
        """What is wrong with what is shown, where such writes have to be there."""
        counts = shown.counts
        faults = [f"the context lacks {count} of {vnode}" for vnode, count in self.least.items() if counts.get(vnode, 0) < count]
        needed = [one for one in self.writes if one.tag is not None and must(one)]
        for one in needed:
            faults += self.lost(one, shown, counts)
        for tag, value in shown.siblings.items():
            faults += self.wrong(tag, value, needed, shown)
        return faults

    def lost(self, one: Write, shown: Shown, counts: Counts) -> list[str]:
        """What is wrong with a write that has to be there."""
        if not has(counts, one.tag):
            return [f"{one.tag} is lost: {words_of_value(one.value)}"]
        is_single_tombstone = one.value is None and not shown.siblings
        if one.tag in shown.siblings or is_single_tombstone:
            return []
        later = (other for other in self.writes if other is not one and (other.tag is None or has(counts, other.tag)))
        return [] if any(other.has_seen(one.tag) for other in later) else [f"{one.tag} is gone, and nothing had seen it"]

    def wrong(self, tag: str, value: bytes | None, needed: list[Write], shown: Shown) -> list[str]:
        """What is wrong with a sibling that is shown."""
        owners = [one for one in self.writes if one.tag == tag] or [one for one in self.writes if one.tag is None]
        if not any(one.value == value for one in owners) and not self.may_be_first_tombstone(tag, value):
            return [f"{tag} has a value that nobody wrote: {words_of_value(value)}"]
        later = [one for one in self.writes if one.tag != tag and (one in needed or one.tag in shown.siblings)]
        return [f"{tag} is shown beside {one.tag}, which had seen it" for one in later if one.has_seen(tag)]


    def may_be_first_tombstone(self, tag: str, value: bytes | None) -> bool:
        """Whether a store may have begun with this one, as a single tombstone, which no read shows."""
        return value is None and has(self.least, tag) and not any(one.key == "" for one in self.writes)


def words_of_value(value: bytes | None) -> str:
    return "a tombstone" if value is None else f"{value[:40]!r} of {len(value)} bytes"


class Numbered(Client):
    """A connection whose requests are counted, to one of several servers, by its number."""

    def __init__(self, address: tuple[str, int], server: int = 0):
        super().__init__(address)
        self.name, self.count = (server, self.socket.getsockname()[1]), 0

    def next_number(self) -> int:
        self.count += 1
        return self.count - 1


class Writer(threading.Thread):
    """Writes some keys so many times: blindly, with what it has read, with an older context, deletes, and new keys one behind another."""

    def __init__(self, server: Server, name: str, known: dict[str, Known], keys: list[str], count: int, chance: random.Random):
        super().__init__(name=name)
        self.server, self.known, self.keys, self.count, self.chance = server, known, keys, count, chance
        self.older: dict[str, str] = {}
        self.server_number = 0
        # Some values have a part of these bytes in them, as of a log.
        self.quoted = b""
        self.faults: list[str] = []
        self.piped = 0
        self.acknowledged = 0

    def run(self) -> None:
        try:
            with Numbered(self.server.address, self.server_number) as client:
                while self.count > 0:
                    if self.chance.random() < 0.1:
                        self.pipe(client)
                    else:
                        self.change(client, self.chance.choice(self.keys))
        except OSError:  # the server has ended
            pass
        except ValueError as error:
            self.faults.append(f"an answer that is none: {error}")

    def value(self) -> bytes:
        length = self.chance.choice((0, 20, 100, 300, 300, 5_000 if self.chance.random() < 0.3 else 50))
        rest = self.chance.randbytes(length)
        if self.quoted and self.chance.random() < 0.1:
            first = self.chance.randrange(len(self.quoted))
            rest = self.quoted[first : first + MOST_QUOTED_BYTES]
        return b"%s-%d-" % (self.name.encode(), self.chance.getrandbits(48)) + rest

    def sent(self, client: Numbered, key: str, value: bytes | None, context: str | None) -> tuple[Write, bytes]:
        """A write that is sent now, and its request."""
        self.count -= 1
        one = Write(key, value, counts_of(context), client.name, client.next_number())
        self.known[key].writes.append(one)
        method = "DELETE" if value is None else "PUT"
        return one, request(method, f"{BUCKET}/{key}", value, context)

    def hear(self, client: Numbered, one: Write) -> None:
        answer = client.hear()
        if answer.status == 204:
            one.tag = answer.tag
            self.acknowledged += 1
        elif answer.status in REFUSALS:
            self.known[one.key].writes.remove(one)
        else:
            self.faults.append(f"a write of {one.key}: {answer.status} {answer.body[:80]!r}")

    def change(self, client: Numbered, key: str) -> None:
        client.next_number()
        client.send(read_request(key))
        shown = shown_in(client.hear())
        way, context, value = self.chance.random(), shown.context, self.value()
        if shown.context and self.chance.random() < 0.3:
            self.older[key] = shown.context
        if way < 0.3 and len(shown.siblings) < MOST_SIBLINGS:
            context = None
        elif way < 0.4 and len(shown.siblings) < MOST_SIBLINGS:
            context = self.older.get(key, context)
        elif way < 0.5:
            value = None
        one, asked = self.sent(client, key, value, context)
        client.send(asked)
        self.hear(client, one)

    def pipe(self, client: Numbered) -> None:
        """Puts new keys one behind another, and reads the answers behind the last."""
        sent = []
        for _ in range(self.chance.randint(2, MOST_PIPED)):
            self.piped += 1
            key = f"{self.name}-p{self.piped}"
            self.known[key] = Known()
            sent.append(self.sent(client, key, self.value(), None))
        client.send(b"".join(asked for _, asked in sent))
        for one, _ in sent:
            self.hear(client, one)


def wait_for(writers: list[Writer], count: int, seconds: float = 5.0) -> None:
    """Waits until so many writes were acknowledged, where the machine has much else to do, or for some seconds."""
    until = time.monotonic() + seconds
    while sum(writer.acknowledged for writer in writers) < count and time.monotonic() < until:
        time.sleep(0.005)


def read_all(server: Server, keys: Iterable[str], together: int = 50) -> dict[str, Shown]:
    """What is shown of each key, some asked together."""
    keys, shown = list(keys), {}
    with server.client() as client:
        for first in range(0, len(keys), together):
            some = keys[first : first + together]
            answers = client.ask_together([read_request(key) for key in some])
            shown.update(zip(some, map(shown_in, answers)))
    return shown
