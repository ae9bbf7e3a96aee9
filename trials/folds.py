"""Keys that are written in many starts: their contexts don't grow with starts, all values stay, and nothing comes back.

A folder is started many times in a row, with three copies of each key. Each start reads three keys, one of one value, one of two
siblings, and one that is deleted, finds what the last one left, and writes each by all three vnodes. No context may count more than 32
vnodes of former starts. Where a start has folded a key, a context of the start before is refused; where it hasn't, the context is what
it was. No tag comes twice.

Once a start has folded keys, and written them anew, some of its files are put back as they were before it, as where a server is killed
while it replaces them: each such folder has to start with what that start wrote, and nothing besides.
"""
from __future__ import annotations

import itertools
from collections.abc import Iterator
from dataclasses import dataclass, field
from pathlib import Path

import kept
from server import Client, Server, entries_of
from trial import Findings, Result

NAME = "folds"
PROMISES = "A key that many starts write keeps its values and a short context; what a start folded comes back by no old file."
QUICK = True


@dataclass(frozen=True)
class Size:
    """How many starts there are in a row. Each adds three vnodes to a key's context."""

    starts: int


FULL, SHORT = Size(starts=60), Size(starts=14)

MOST_FORMER_ENTRIES = 32
FOLD_INDEX = 254
KEYS = ("one", "pair", "gone")
FILES = tuple(f"vnode-{index}.records" for index in range(kept.VNODES))


def path_of(key: str) -> str:
    return f"/buckets/b/keys/{key}"


def read(client: Client, key: str) -> tuple[frozenset[bytes], str | None]:
    """The values that stand at a key, and its context."""
    answer = client.ask("GET", f"{path_of(key)}?r=3")
    if answer.status == 300:
        siblings = [client.ask("GET", f"{path_of(key)}?vtag={tag}") for tag in answer.body.decode().split()[1:]]
        return frozenset(one.body for one in siblings if one.status == 200), answer.context
    return frozenset([answer.body] if answer.status == 200 else []), answer.context


@dataclass
class Book:
    """What has to stand at each key, the contexts of the last reads, and the tags of all writes."""

    values: dict[str, frozenset[bytes]] = field(default_factory=lambda: dict.fromkeys(KEYS, frozenset()))
    contexts: dict[str, str | None] = field(default_factory=lambda: dict.fromkeys(KEYS))
    tags: list[tuple[str, str]] = field(default_factory=list)
    folds: int = 0

    def is_to_be_folded(self) -> bool:
        """Whether the next start has a key to fold."""
        return any(context and len(entries_of(context)) > MOST_FORMER_ENTRIES for context in self.contexts.values())

    def write(self, client: Client, key: str, vnode: int, value: bytes | None, context: str | None) -> None:
        """A write that has to be taken: a delete where there is no value."""
        method = "DELETE" if value is None else "PUT"
        answer = client.ask(method, f"{path_of(key)}?at={vnode}", value, context)
        if answer.status != 204:
            raise ValueError(f"{method} {key} at {vnode}: {answer.status} {answer.body[:100]!r}")
        self.tags.append((key, answer.tag))

    def write_all(self, client: Client, start: int) -> None:
        """Writes each key by each vnode."""
        for key, vnode in itertools.product(KEYS, range(kept.VNODES)):
            is_last = vnode == kept.VNODES - 1
            value = None if key == "gone" and is_last else b"%s-%d-%d" % (key.encode(), start, vnode)
            _, context = read(client, key)
            # The last write of a pair has seen nothing: it stands beside the one before.
            self.write(client, key, vnode, value, None if key == "pair" and is_last else context)
        last = kept.VNODES - 1
        self.values = {
            "one": frozenset([b"one-%d-%d" % (start, last)]),
            "pair": frozenset(b"pair-%d-%d" % (start, vnode) for vnode in (last - 1, last)),
            "gone": frozenset(),
        }
        self.contexts = {key: read(client, key)[1] for key in KEYS}

    def check(self, found: Findings, client: Client, what: str) -> None:
        """All values are there, and nothing besides."""
        for key in KEYS:
            values, _ = read(client, key)
            found.hold(values == self.values[key], f"{what}: {key} has {sorted(values)} in place of {sorted(self.values[key])}")


def check_contexts(found: Findings, client: Client, book: Book, start: int) -> None:
    """The contexts that a start begins with: short ones, and of keys that it folded those of before are refused."""
    for key in KEYS:
        _, context = read(client, key)
        before = book.contexts[key]
        if context is None or before is None:
            continue
        entries = entries_of(context)
        found.hold(len(entries) <= MOST_FORMER_ENTRIES, f"start {start}: the context of {key} has {len(entries)} entries")
        if context == before:
            continue
        book.folds += 1
        is_fold = len(entries) == 1 and entries[0].index == FOLD_INDEX
        found.hold(is_fold and len(entries_of(before)) > MOST_FORMER_ENTRIES, f"start {start}: {key} {entries} behind {entries_of(before)}")
        late = client.ask("PUT", path_of(key), b"late", before)
        found.hold(late.status == 412, f"start {start}: a context of before is answered {late.status}")


def one_start(found: Findings, program: Path, folder: Path, book: Book, start: int) -> None:
    """A start that finds what the last one left, and writes."""
    with Server.keep(program, folder) as server:
        with server.client() as client:
            book.check(found, client, f"start {start}")
            check_contexts(found, client, book, start)
            book.write_all(client, start)
        server.stop_in_order()


def torn(before: dict[str, bytes], folder: Path) -> Iterator[tuple[str, Path]]:
    """Copies of a folder of which some files of records, but not all, are of before."""
    for count in range(1, len(FILES)):
        for old in itertools.combinations(FILES, count):
            with kept.copied(folder) as copy:
                for name in old:
                    (copy / name).write_bytes(before[name])
                yield " and ".join(old), copy


def try_torn(found: Findings, program: Path, folder: Path, book: Book, before: dict[str, bytes]) -> int:
    """Starts each such copy twice. Gives how many there were."""
    count = 0
    for what, copy in torn(before, folder):
        for _ in range(2):
            with Server.keep(program, copy) as server:
                with server.client() as client:
                    book.check(found, client, f"{what} of before")
                server.stop_in_order()
        count += 1
    return count


def run(program: Path, seed: int, size: Size) -> Result:
    found, book, mixed = Findings(), Book(), 0
    with kept.folders(**{kept.SETTINGS: kept.NO_SNAPSHOTS_BY_ITSELF + kept.THREE_COPIES}) as folder:
        for start in range(size.starts):
            before = kept.contents(folder) if book.is_to_be_folded() and not mixed else None
            one_start(found, program, folder, book, start)
            if before is not None:
                mixed = try_torn(found, program, folder, book, before)
    twice = {tag for tag in book.tags if book.tags.count(tag) > 1}
    found.hold(not twice, f"tags that came twice: {sorted(twice)}")
    found.hold(book.folds and mixed, f"{book.folds} keys were folded, {mixed} folders mixed")
    return found.result(f"{size.starts} starts, {book.folds} folds, {mixed} folders of mixed files")
