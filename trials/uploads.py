"""Hooks of a kept store: uploads pile up nowhere, a hook that is refused stops no start, and what resolvers write is kept.

One hook of 32,784 bytes is uploaded again and again: neither the file of requests nor memory nor the next start may grow with that,
and the last upload has to be in force then.

Then the image of a hook in that file is changed into one that the verifier refuses, as a stricter verifier would: the start has to
tell it in a line, to answer as if the hook weren't there, and to have all else in force; after one more stop and start the same.
Uploaded anew, the hook bites again, by the binding that was there.

At last a resolver is bound, and siblings are written. Once snapshots rest, a read has the resolver write: a snapshot has to come by
itself, so that after a kill the context of that read is taken.
"""
from __future__ import annotations

import hashlib
import struct
import time
from dataclasses import dataclass
from pathlib import Path

import kept
from server import MIB, Client, Server
from trial import TOP, Findings, Result

NAME = "uploads"
PROMISES = "Uploads of a hook pile up nowhere, a refused one stops no start, resolvers' writes are kept."
QUICK = True


@dataclass(frozen=True)
class Size:
    """How often a hook is uploaded."""

    uploads: int


FULL, SHORT = Size(uploads=2_000), Size(uploads=300)

REQUESTS = "hooks.requests"
SEAL_BYTES = 41
SLOTS = 4_096
EXIT = b"\x95" + bytes(7)
PASS, REJECT, REJECT_OTHERWISE = 0, 256, 256 + 2
# In a hook of two slots that rejects each write, what it answers, and in its place a register that nothing has set.
ANSWERS, ANSWERS_UNSET = b"\xb7\0\0\0\x01\x01\0\0", b"\xbf\x50\0\0\0\0\0\0"
RESOLVER = TOP / "crates/examples/data/hooks/largest_counter.img"
HEAD_BYTES = 1_000
MOST_GROWTH_BYTES = 8 * MIB
MOST_LONGER_SECONDS = 1.0
EACH_SECOND = b"snapshot 1\n"
DUE_SECONDS, QUIET_SECONDS = 10.0, 2.5


def long_hook(answer: int) -> bytes:
    """A hook of as many slots as one may have."""
    head = b"RBPF\x01\x01\0\0" + struct.pack("<II", 128, 0)
    return head + (b"\xb7\0\0\0" + struct.pack("<I", answer)) * (SLOTS - 1) + EXIT


def bind(client: Client, bucket: str, what: str, name: str) -> None:
    client.must(204, "PUT", f"/buckets/{bucket}/props", b'{"props":{"%s":"%s"}}' % (what.encode(), name.encode()))


def status_of_put(client: Client, bucket: str, key: object = "k") -> int:
    return client.ask("PUT", f"/buckets/{bucket}/keys/{key}", b"v").status


def try_uploads(found: Findings, program: Path, uploads: int) -> int:
    """Gives how many bytes the file of requests has at the end."""
    with kept.folders(settings=kept.NO_SNAPSHOTS_BY_ITSELF) as folder:
        with Server.keep(program, folder) as server, server.client() as client:
            client.must(204, "PUT", "/hooks/long", long_hook(PASS))
            bind(client, "b", "precommit", "long")
            server.snapshot()
            once, before = (folder / REQUESTS).stat().st_size, server.memory_bytes()
            for number in range(uploads):
                client.must(204, "PUT", "/hooks/long", long_hook(PASS if number < uploads - 1 else REJECT))
            grown = server.memory_bytes() - before
            found.hold(grown <= MOST_GROWTH_BYTES, f"{uploads} uploads took {grown / MIB:.1f} MB of memory")
            client.close()
            server.stop_in_order()
        many = (folder / REQUESTS).stat().st_size
        found.hold(many <= once + HEAD_BYTES, f"{uploads} uploads: {many} bytes in the place of {once}")
        with Server.keep(program, folder) as again:
            late = again.start_seconds - server.start_seconds
            found.hold(late <= MOST_LONGER_SECONDS, f"the start behind {uploads} uploads took {late:.1f} s more")
            with again.client() as client:
                found.hold(status_of_put(client, "b") == 403, "the last upload is in force")
            again.stop_in_order()
    return many


def refuse_hook(path: Path) -> None:
    """Changes the image of a hook in a file of requests into one that is refused, under a seal that is right."""
    text = path.read_bytes()[:-SEAL_BYTES]
    if text.count(ANSWERS) != 1:
        raise ValueError(f"{text.count(ANSWERS)} hooks that reject")
    text = text.replace(ANSWERS, ANSWERS_UNSET)
    path.write_bytes(text + hashlib.sha1(text).hexdigest().encode() + b"\n")


def try_refused(found: Findings, program: Path) -> None:
    with kept.folders(settings=kept.NO_SNAPSHOTS_BY_ITSELF) as folder:
        with Server.keep(program, folder) as server:
            with server.client() as client:
                client.must(204, "PUT", "/hooks/stale", kept.REJECTS)
                client.must(204, "PUT", "/hooks/long", long_hook(REJECT_OTHERWISE))
                bind(client, "stale", "precommit", "stale")
                bind(client, "long", "precommit", "long")
                found.hold((status_of_put(client, "stale"), status_of_put(client, "long")) == (403, 403), "both hooks bite")
            server.stop_in_order()
        refuse_hook(folder / REQUESTS)
        for what in ("a start", "the start behind it"):
            with Server.keep(program, folder) as server:
                with server.client() as client:
                    statuses = (status_of_put(client, "stale", what.split()[0]), status_of_put(client, "long"))
                    found.hold(statuses == (204, 403), f"{what} with a refused hook: {statuses}")
                    gone = client.ask("DELETE", "/hooks/stale")
                    found.hold((gone.status, gone.body.strip()) == (404, b"G1"), f"{what}: the refused hook's name: {gone}")
                told = server.told.texts()
                found.hold(len(told) == 1 and "stale" in told[0] and " V" in told[0], f"{what} tells the refused hook: {told}")
                if what != "a start":
                    with server.client() as client:
                        client.must(204, "PUT", "/hooks/stale", kept.REJECTS)
                        found.hold(status_of_put(client, "stale") == 403, "uploaded anew it bites by the binding of before")
                server.stop_in_order()


def try_resolver(found: Findings, program: Path) -> None:
    key = "/buckets/r/keys/k"
    with kept.folders(settings=EACH_SECOND) as folder:
        with Server.keep(program, folder) as server:
            with server.client() as client:
                client.must(204, "PUT", key, b"3")
                client.must(204, "PUT", key, b"7")
                client.must(204, "PUT", "/hooks/largest", RESOLVER.read_bytes())
                bind(client, "r", "resolver", "largest")
                rest(server)
                count = len(server.told)
                read = client.must(200, "GET", key)
                found.hold(read.body == b"7", f"what the resolver chose: {read}")
                line = server.told.at(count, DUE_SECONDS)
                found.hold(kept.is_whole_snapshot(line), f"a snapshot of what a resolver wrote: {line}")
            server.kill()
        with Server.keep(program, folder) as again, again.client() as client:
            answer = client.ask("PUT", key, b"8", read.context)
            found.hold(answer.status == 204, f"the context of that read behind a kill: {answer}")


def rest(server: Server) -> None:
    """Waits until snapshots have come by themselves, and no more does."""
    count = 0
    server.told.at(0, DUE_SECONDS)
    while count < len(server.told):
        count = len(server.told)
        time.sleep(QUIET_SECONDS)


def run(program: Path, seed: int, size: Size) -> Result:
    found = Findings()
    held = try_uploads(found, program, size.uploads)
    try_refused(found, program)
    try_resolver(found, program)
    return found.result(f"{held} bytes behind {size.uploads} uploads")
