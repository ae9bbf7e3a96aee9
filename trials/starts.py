"""Starts that follow one another quickly: no tag comes twice, and no context from before replaces a write that it had not seen.

First a server is killed and started ten times a second, and each start is asked to write for as long as it lives: what was answered
has its tag noted. Then a server that has answered is killed and started at once: a client writes a key and keeps its context, the
server is killed, another client writes the key over the next start without a context, and the first writes with the old one. It has
to be refused, or both values have to be there.
"""
from __future__ import annotations

import random
import re
import time
from dataclasses import dataclass
from pathlib import Path

from server import Answer, Server
from trial import Findings, Result

NAME = "starts"
PROMISES = "Quick starts give no tag twice, and no old context replaces a write that it hadn't seen."
QUICK = True


@dataclass(frozen=True)
class Size:
    """How many starts are hurried, and how many old contexts are tried."""

    hurried_starts: int
    old_contexts: int


FULL = Size(hurried_starts=50, old_contexts=10)
SHORT = Size(hurried_starts=20, old_contexts=3)

KEY = "/buckets/b/keys/k"
LEAST_LIFE_SECONDS, MOST_LIFE_SECONDS = 0.05, 0.15
LEAST_PATIENCE_SECONDS = 0.01


def ask(server: Server, method: str, body: str | None = None, context: str | None = None, seconds: float = 30.0) -> Answer | None:
    """What is answered in time to one request of a connection of its own."""
    try:
        with server.client(seconds=seconds) as client:
            return client.ask(method, KEY, None if body is None else body.encode(), context)
    except (TimeoutError, ConnectionError):
        return None


def hurried_tags(program: Path, starts: int, chance: random.Random) -> list[str]:
    """The tags that were answered by starts that live for a tenth of a second or so each."""
    tags = []
    for _ in range(starts):
        until = time.monotonic() + chance.uniform(LEAST_LIFE_SECONDS, MOST_LIFE_SECONDS)
        with Server.serve(program) as server:
            answer = ask(server, "PUT", "v", seconds=max(LEAST_PATIENCE_SECONDS, until - time.monotonic()))
        if answer is not None and answer.tag:
            tags.append(answer.tag)
    return tags


def try_old_context(found: Findings, program: Path, number: int) -> list[str]:
    """Has a context of one start meet a write of the next. Gives the tags that were answered."""
    with Server.serve(program) as first:
        old = ask(first, "PUT", f"old{number}")
        context = ask(first, "GET").context
    with Server.serve(program) as second:
        new = ask(second, "PUT", f"new{number}")
        late = ask(second, "PUT", f"late{number}", context)
        read = ask(second, "GET")
    stands = f"new{number}".encode() in read.body or read.status == 300 and len(re.findall(rb"\d+-\d+", read.body)) > 1
    found.hold(stands, f"the write new{number} stands, where an old context was answered {late.status}: {read.status} {read.body!r}")
    return [old.tag, new.tag]


def run(program: Path, seed: int, size: Size) -> Result:
    found = Findings()
    tags = hurried_tags(program, size.hurried_starts, random.Random(seed))
    answered = len(tags)
    for number in range(size.old_contexts):
        tags += try_old_context(found, program, number)
    twice = {tag for tag in tags if tags.count(tag) > 1}
    found.hold(not twice, f"tags that came twice: {sorted(twice)}")
    return found.result(f"{size.hurried_starts} hurried starts, {answered} answered; {2 * size.old_contexts} others")
