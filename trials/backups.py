"""Copies the folder of a kept store while it is written and kept, starts each copy beside it, and one in its place.

Three clients write, delete and bind a hook as in kills.py, and snapshots are made one after another, so most copies begin in the midst
of one. A copy is made by the line of docs/OPERATIONS.md, or slowly, file by file in the order of names, with what is half written too.
In one more the server is stopped and started between two files. Each has to start. Each key has to be as it was at some moment between
the beginning of the copy and its end. Keys that were written before, and a hook that was bound, have to be there.

A copy is started by a clock that is ahead of the store's, as one that is put back later, or with a number that the page's line raises.
No two starts may have one number. A context of before has to be taken by the copy. One of a write behind the copy has to
be refused there (412 `P1`) and let nothing go, and so a context of the copy at the store, at a later start of it, too.

The page's line that looks at a copy has to print how many records it has. An archive that was cut has to be told by its sum. Of a
copy that lacks a whole file nobody is told: how many records it has less is said.
"""
from __future__ import annotations

import contextlib
import os
import random
import shutil
import stat
import threading
import time
from collections.abc import Callable, Iterator, Mapping, Sequence
from dataclasses import dataclass, field
from pathlib import Path

import kept
import kills
from server import VNODES_PER_NUMBER, Client, Server, entries_of, request, vnode_of
from trial import TOP, Findings, Result, library, line_of_page, run_line

NAME = "backups"
PROMISES = "A copy of a folder taken at any moment starts, has what was kept, and gives no number again."
QUICK = True


@dataclass(frozen=True)
class Size:
    """How many starts a store has, how many copies are made in each, and how many keys lie in it besides those that are written; at how
    many vnodes each key has a copy, of one store after another."""

    starts: int
    copies: int
    keys: int
    at_vnodes: tuple


FULL = Size(starts=3, copies=6, keys=20_000, at_vnodes=(1, 3))
SHORT = Size(starts=2, copies=3, keys=1_000, at_vnodes=(1,))

PAGE = TOP / "docs" / "OPERATIONS.md"
TAKES_THE_NUMBER, SEALS_THE_NUMBER = "head -n 1", "cut -c 1-40"
MAKES_A_COPY, PUTS_IT_BACK, LOOKS_AT_IT, RAISES_THE_NUMBER = "-cf copy.tar", "-xf copy.tar", "echo stop |", "number $N"
SUMS_IT, COMPARES_THE_SUM = "> copy.tar.sha256", "sha256sum -c"
TAKEN = (0, 1)  # 1 where a file was replaced while it was read
ARCHIVE = "copy.tar"
CUTS = 4

WRITTEN_TOGETHER = 64
LOOKED_AT = 100
PIECE_BYTES = 65_536
LOOK_SECONDS = 0.001
MOST_REST_SECONDS = 0.05
IN_THE_MIDST = 0.8
MOST_PIECE_SECONDS = 0.002
SNAPSHOT_SECONDS = 120
OWNERS_FOLDER, OWNERS_FILE = 0o700, 0o600

History = dict[str, list]


class Snapshooter(threading.Thread):
    """Asks for snapshots, one after another."""

    def __init__(self, server: Server, chance: random.Random):
        super().__init__()
        self.server, self.chance = server, chance
        self.is_asked, self.is_over, self.last_seconds = False, False, 0.0
        self.faults: list[str] = []

    def run(self) -> None:
        while not self.is_over:
            begun, self.is_asked = time.monotonic(), True
            line = self.server.snapshot(SNAPSHOT_SECONDS)
            if kept.is_whole_snapshot(line):
                self.last_seconds = time.monotonic() - begun
            else:
                self.faults.append(f"a snapshot: {line}")
                self.is_over = True
            self.is_asked = False
            time.sleep(self.chance.uniform(0, MOST_REST_SECONDS))

    def wait_into_the_midst_of_one(self) -> None:
        """Waits until the next has been made for a while."""
        while not self.is_asked and not self.is_over:
            time.sleep(LOOK_SECONDS)
        time.sleep(self.chance.uniform(0, self.last_seconds))


class Writer(kills.Writer):
    """A client as in kills.py, which knows since when what may stand."""

    def __init__(self, server: Server, number: int, known: History, contexts: dict, chance: random.Random):
        super().__init__(server, number, known, contexts, chance)
        self.moments = {key: [(0.0, may)] for key, may in known.items()}

    def note(self, key: str, may: list) -> None:
        super().note(key, may)
        self.moments[key].append((time.monotonic(), may))

    def stood(self, begun: float, ended: float) -> History:
        """What stood under each key at some time between two moments."""
        may: History = {}
        for key, moments in self.moments.items():
            noted = [one for one in list(moments) if one[0] <= ended]
            first = max(place for place, (moment, _) in enumerate(noted) if moment <= begun)
            may[key] = []
            for _, ones in noted[first:]:
                may[key] += [one for one in ones if one not in may[key]]
        return may


@dataclass(frozen=True)
class Given:
    """A write of a key: its value, its tag, and the context of a read behind it."""

    key: str
    value: bytes
    tag: str
    context: str

    @property
    def number(self) -> int:
        """The number of the start that gave it."""
        return vnode_of(self.tag) // VNODES_PER_NUMBER


@dataclass
class Copy:
    """A copy, what may stand in it for each client, and what was written before and behind it."""

    folder: Path
    may: list[History]
    before: Given
    behind: Given
    is_in_midst: bool


def given(client: Client, name: str) -> Given:
    """Writes a key without having read, and reads it then."""
    key, value = f"/buckets/given/keys/{name}", name.encode()
    tag = client.must(204, "PUT", key, value).tag
    return Given(key, value, tag, client.must(200, "GET", key).context)


def is_covered(context: str, known: str | None) -> bool:
    """Whether all that a context counts is counted by another."""
    counts = {entry.vnode: entry.count for entry in entries_of(known)} if known else {}
    return all(entry.count <= counts.get(entry.vnode, 0) for entry in entries_of(context))


def copy_slowly(folder: Path, to: Path, chance: random.Random, between: Callable[[], None] = lambda: None) -> None:
    """Copies file by file, logs before files of vnodes, with rests, those that are half written too."""
    to.mkdir(mode=OWNERS_FOLDER)
    names = [path.name for path in folder.iterdir()]
    for name in sorted(names):
        with contextlib.suppress(FileNotFoundError), open(folder / name, "rb") as source, open(to / name, "wb") as made:
            while piece := source.read(PIECE_BYTES):
                made.write(piece)
                time.sleep(chance.uniform(0, MOST_PIECE_SECONDS))
        between()


def filler(number: int) -> tuple[str, bytes]:
    """A key that is written once, and its value."""
    return f"/buckets/lies/keys/{number}", b"%d " % number * 20


def put_fillers(client: Client, keys: int) -> None:
    for first in range(0, keys, WRITTEN_TOGETHER):
        asked = [request("PUT", *filler(number)) for number in range(first, min(keys, first + WRITTEN_TOGETHER))]
        if any(answer.status != 204 for answer in client.ask_together(asked)):
            raise ValueError("a write isn't acknowledged")


@dataclass
class Life:
    """A store, its copies, and what must never come twice: numbers of starts."""

    found: Findings
    program: Path
    folder: Path
    chance: random.Random
    size: Size
    ahead: str
    known: list[History]
    contexts: list[dict] = field(default_factory=lambda: [{} for _ in range(kills.CLIENTS)])
    numbers: list[int] = field(default_factory=list)
    minutes: int = 0
    of_copies: list[Given] = field(default_factory=list)
    starts: int = 0
    copies: int = 0
    in_midst: int = 0

    @property
    def room(self) -> Path:
        return self.folder.parent

    def later(self) -> Mapping[str, str]:
        """A clock that is a minute later than that of the start before, be it the store's or a copy's."""
        self.minutes += 1
        return {"LD_PRELOAD": self.ahead, "MINUTES_AHEAD": str(self.minutes)}

    def start(self) -> Server:
        """The next start of the store."""
        self.starts += 1
        return Server.keep(self.program, self.folder, environment=self.later(), before=lambda: os.umask(0o077))

    def note_number(self, what: str, number: int) -> None:
        self.found.hold(number not in self.numbers, f"{what}: the number {number} comes twice")
        self.numbers.append(number)

    def page(self, word: str, **named: object) -> int:
        """Runs the line of the page that has this word, in the room. Gives its status."""
        ran = run_line(line_of_page(PAGE, word), self.room, **named)
        self.found.hold(ran.returncode in TAKEN, f"{word}: {ran}")
        return ran.returncode

    # Copies

    def try_lives(self) -> None:
        """Starts of the store, one after another, with copies in each."""
        for number in range(self.size.starts):
            with self.start() as server, server.client() as client:
                if number == 0:
                    put_fillers(client, self.size.keys)
                    client.must(204, "PUT", "/hooks/never", kept.REJECTS)
                    client.must(204, "PUT", "/buckets/never/props", b'{"props":{"precommit":"never"}}')
                self.note_number(f"start {number}", given(client, f"start-{number}").number)
                self.try_refused_at_the_store(client, f"start {number}")
                with self.written(server) as (writers, snapshooter):
                    for _ in range(self.size.copies):
                        self.try_one(server, client, writers, snapshooter)
                server.stop_in_order()

    @contextlib.contextmanager
    def written(self, server: Server) -> Iterator[tuple[list[Writer], Snapshooter]]:
        """Clients that write, and snapshots, for as long as it is needed."""
        chances = [random.Random(self.chance.random()) for _ in range(kills.CLIENTS + 1)]
        ways = zip(range(kills.CLIENTS), self.known, self.contexts, chances)
        writers = [Writer(server, number, known, contexts, chance) for number, known, contexts, chance in ways]
        snapshooter = Snapshooter(server, chances[-1])
        threads: Sequence[threading.Thread] = (*writers, snapshooter)
        for thread in threads:
            thread.start()
        try:
            yield writers, snapshooter
        finally:
            for thread in threads:
                thread.is_over = True
                thread.join()
            for fault in [fault for thread in threads for fault in thread.faults]:
                self.found.fail(fault)

    def try_one(self, server: Server, client: Client, writers: Sequence[Writer], snapshooter: Snapshooter) -> None:
        """Makes a copy and tries it, while the store goes on."""
        way = (self.by_the_page, self.slowly)[self.copies % 2]
        self.copies += 1
        copy = self.taken(client, writers, snapshooter, way)
        self.in_midst += copy.is_in_midst
        self.try_copy(copy, f"copy {self.copies}", client)
        shutil.rmtree(copy.folder)

    def taken(self, client: Client, writers: Sequence[Writer], snapshooter: Snapshooter, way: Callable[[Path], None]) -> Copy:
        before = given(client, f"before-{self.copies}")
        if self.chance.random() < IN_THE_MIDST:
            snapshooter.wait_into_the_midst_of_one()
        begun, is_in_midst, folder = time.monotonic(), snapshooter.is_asked, self.room / f"copy-{self.copies}"
        way(folder)
        ended = time.monotonic()
        behind = given(client, f"behind-{self.copies}")
        return Copy(folder, [writer.stood(begun, ended) for writer in writers], before, behind, is_in_midst)

    def by_the_page(self, folder: Path) -> None:
        """Makes an archive and puts it back, by the lines of the page."""
        self.page(MAKES_A_COPY, FOLDER=self.folder)
        for word in (SUMS_IT, COMPARES_THE_SUM):
            self.page(word)
        self.page(PUTS_IT_BACK, FOLDER=folder)
        modes = {stat.S_IMODE(path.stat().st_mode) for path in (*folder.iterdir(), self.room / ARCHIVE)}
        is_owners = stat.S_IMODE(folder.stat().st_mode) == OWNERS_FOLDER and modes == {OWNERS_FILE}
        self.found.hold(is_owners, f"a copy is its owner's alone: {sorted(map(oct, modes))}")

    def slowly(self, folder: Path) -> None:
        copy_slowly(self.folder, folder, self.chance)

    def try_copy(self, copy: Copy, what: str, store: Client | None) -> None:
        """Starts a copy, and compares it with what it has to have. The store may go on beside it."""
        is_raised = self.chance.random() < 0.5
        if is_raised:
            self.page(RAISES_THE_NUMBER, FOLDER=copy.folder)
        with Server.keep(self.program, copy.folder, environment=None if is_raised else self.later()) as server:
            self.check_keys(server, copy, what)
            with server.client() as client:
                self.try_contexts(client, copy, what, store)
            server.stop_in_order()
        if is_raised:
            # The line raises the numbers of all copies of a minute alike, and no copy meets another one's contexts.
            self.numbers.pop()

    def check_keys(self, server: Server, copy: Copy, what: str) -> None:
        for number, may in enumerate(copy.may):
            checker = kills.Writer(server, number, may, {}, self.chance)
            with server.client() as checker.client:
                checker.check()
            for fault in checker.faults:
                self.found.fail(f"{what}: {fault}")
        looked_at = [filler(self.chance.randrange(self.size.keys)) for _ in range(LOOKED_AT)]
        with server.client() as client:
            shown = client.ask_together([request("GET", key) for key, _ in looked_at])
            self.found.hold(client.ask("PUT", "/buckets/never/keys/k", b"x").status == 403, f"{what}: the hook of before is bound")
        lost = [key for (key, value), answer in zip(looked_at, shown) if (answer.status, answer.body) != (200, value)]
        self.found.hold(not lost, f"{what}: {len(lost)} of {LOOKED_AT} keys are lost: {lost[:3]}")

    def try_contexts(self, client: Client, copy: Copy, what: str, store: Client | None) -> None:
        """Has contexts of the store meet the copy, and those of the copy the store."""
        before, behind = copy.before, copy.behind
        taken = client.ask("PUT", before.key, b"taken", before.context)
        read = client.ask("GET", before.key)
        self.found.hold((taken.status, read.status, read.body) == (204, 200, b"taken"), f"{what}: a context of before: {taken} {read}")
        self.found.hold(client.ask("GET", behind.key).status == 404, f"{what}: what was written behind it isn't there")
        own = client.must(204, "PUT", behind.key, b"own")
        self.found.hold(own.tag != behind.tag, f"{what}: the tag {own.tag} comes twice")
        self.hold_refused(client, behind.key, behind.context, b"own", f"{what}: a context of behind it")
        mine = Given(behind.key, b"own", own.tag, client.ask("GET", behind.key).context)
        self.note_number(what, mine.number)
        self.of_copies.append(mine)
        if store is not None:
            self.hold_refused(store, behind.key, mine.context, behind.value, f"{what}: its context at the store")
            self.try_contexts_of_now(client, store, what)

    def try_contexts_of_now(self, client: Client, store: Client, what: str) -> None:
        """Hands in contexts of keys that are written all the time: what they count that the copy lacks decides."""
        for key in sorted(self.known[0].keys() - {kills.BOUND}):
            path = f"/buckets/b/keys/{key}"
            context, known = store.ask("GET", path).context, client.ask("GET", path).context
            if context is None:
                continue
            wanted = 204 if is_covered(context, known) else 412
            answer = client.ask("PUT", path, b"now", context)
            self.found.hold(answer.status == wanted, f"{what}: {key}: {answer.status} in place of {wanted}: {context} {known}")

    def hold_refused(self, client: Client, key: str, context: str, stands: bytes, what: str) -> None:
        """Whether a context is ahead, and what stands stays."""
        answer, read = client.ask("PUT", key, b"stale", context), client.ask("GET", key)
        self.found.hold((answer.status, answer.body.strip()) == (412, b"P1"), f"{what} is refused: {answer}")
        self.found.hold((read.status, read.body) == (200, stands), f"{what} lets nothing go: {read}")

    def try_refused_at_the_store(self, client: Client, what: str) -> None:
        """Hands in, at a start of the store, the contexts of all copies of before."""
        for mine in self.of_copies:
            answer = client.ask("PUT", mine.key, b"stale", mine.context)
            self.found.hold((answer.status, answer.body.strip()) == (412, b"P1"), f"{what}: a copy's context is refused: {answer}")

    # Further ways

    def try_across_starts(self) -> None:
        """Copies slowly while the server is stopped or killed, and started, between files."""
        servers = [self.start()]

        def restart() -> None:
            if self.chance.random() < 0.5:
                server = servers.pop()
                server.snapshot()
                server.stop_in_order() if self.chance.random() < 0.5 else server.kill()
                servers.append(self.start())
                with servers[-1].client() as client:
                    self.note_number("across starts", given(client, f"across-{self.starts}").number)

        with servers[0].client() as client:
            before = given(client, "across")
        servers[0].snapshot()
        folder = self.room / "across"
        copy_slowly(self.folder, folder, self.chance, restart)
        with servers[0].client() as client:
            behind = given(client, "behind-across")
        self.copies += 1
        # All that the clients of before wrote was kept by a stop.
        self.try_copy(Copy(folder, self.known, before, behind, False), "across starts", None)
        servers[0].stop_in_order()

    def try_in_its_place(self) -> None:
        """Puts an archive back in the place of the store, which goes on for a while behind it and is lost then."""
        with self.start() as server, server.client() as client:
            before = given(client, "in-its-place")
            server.snapshot()
            self.page(MAKES_A_COPY, FOLDER=self.folder)
            behind = given(client, "lost")
            server.kill()
        shutil.rmtree(self.folder)
        self.page(PUTS_IT_BACK, FOLDER=self.folder)
        self.copies += 1
        self.try_copy(Copy(self.folder, self.known, before, behind, False), "in its place", None)

    def try_looks(self) -> None:
        """The line of the page that looks at a copy, an archive that was cut, and one that lacks a file."""
        records = kept.loaded_from(self.program, self.folder)
        ran = run_line(line_of_page(PAGE, LOOKS_AT_IT), self.room, FOLDER=self.folder, dvvstore=self.program)
        is_told = ran.returncode == 0 and ran.stdout.startswith(f"loaded {records}\n") and ran.stdout.endswith("audit ok\n")
        self.found.hold(is_told, f"a look at a copy: {ran}")
        self.page(MAKES_A_COPY, FOLDER=self.folder)
        self.page(SUMS_IT)
        whole = (self.room / ARCHIVE).read_bytes()
        for _ in range(CUTS):
            (self.room / ARCHIVE).write_bytes(whole[: self.chance.randrange(len(whole))])
            ran = run_line(line_of_page(PAGE, COMPARES_THE_SUM), self.room)
            self.found.hold(ran.returncode == 1, f"an archive that was cut is told by its sum: {ran}")
        with kept.copied(self.folder) as lacking:
            self.try_lacking(lacking, records)

    def try_lacking(self, folder: Path, records: int | None) -> None:
        """A copy that lacks the file of a vnode is refused by its name, and the lines of the page begin without it."""
        lost = max(folder.glob("vnode-*.records"), key=lambda path: path.stat().st_size)
        lost.unlink()
        refused = kept.refusal(self.program, folder)
        self.found.hold(refused == kept.Refusal(1, f"refused {lost.name}: missing\n"), f"a copy that lacks a file: {refused}")
        self.page(TAKES_THE_NUMBER, FOLDER=folder)
        self.page(SEALS_THE_NUMBER, FOLDER=folder)
        left = kept.loaded_from(self.program, folder)
        self.found.hold(left is not None and left < (records or 0), f"a start without it: {left} of {records} records")


def try_store(found: Findings, program: Path, chance: random.Random, size: Size, at_vnodes: int) -> Life:
    """Tries a store each key of which has a copy at so many vnodes."""
    known: list[History] = [
        {f"c{number}-{place}": [frozenset()] for place in range(kills.KEYS_OF_A_CLIENT)} for number in range(kills.CLIENTS)
    ]
    known[0][kills.BOUND] = [False]
    with kept.folders(settings=kept.NO_SNAPSHOTS_BY_ITSELF + b"copies %d\n" % at_vnodes) as folder:
        (folder / kept.SETTINGS).chmod(OWNERS_FILE)
        life = Life(found, program, folder, chance, size, str(library("later.c", folder.parent / "later.so")), known)
        life.try_lives()
        life.try_across_starts()
        life.try_in_its_place()
        life.try_looks()
    return life


def run(program: Path, seed: int, size: Size) -> Result:
    found, chance = Findings(), random.Random(seed)
    lives = [try_store(found, program, chance, size, at_vnodes) for at_vnodes in size.at_vnodes]
    copies, in_midst, starts = (sum(getattr(life, what) for life in lives) for what in ("copies", "in_midst", "starts"))
    return found.result(f"{copies} copies, {in_midst} in the midst of a snapshot; {starts} starts")
