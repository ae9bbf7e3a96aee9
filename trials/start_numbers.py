"""Numbers of starts: what a start gives no other gave, be its folder put back from a copy, emptied, or of an earlier form.

A folder is started a few times in a row, and each start has to take a higher number, also by a clock that was set back by years.
Then a copy of a folder is made, and two starts behind it write a key and read its context; one is stopped, one is killed. The copy is
put back, or the folder is emptied, or removed, and started by a clock that is ten minutes later (`c/later.c`); in full also by the
system's own, once that is past the numbers that were given, which takes minutes. No tag may come twice, the number has to be the
minute's, the contexts of what was lost have to be refused, and what was written stands.

`number N` in the settings has to be the least that is taken, and behind the last number a start is refused. A folder whose number
is of the earlier form goes on above all that such a number stands for.
"""
from __future__ import annotations

import hashlib
import random
import shutil
import time
from collections.abc import Callable, Mapping
from dataclasses import dataclass, field
from pathlib import Path

import kept
from server import VNODES_PER_NUMBER, Server, vnode_of
from trial import Findings, Result, library

NAME = "start_numbers"
PROMISES = "A folder that is put back or emptied gives no tag again, and old contexts are refused."
QUICK = True


@dataclass(frozen=True)
class Size:
    """How many starts there are in a row, and whether a folder is put back by the system's clock, too."""

    starts: int
    waits: bool


FULL, SHORT = Size(starts=10, waits=True), Size(starts=3, waits=False)

KEY = "/buckets/b/keys/k"
FIRST_MINUTE_SECONDS = 1_767_225_600  # 2026-01-01, 0:00 UTC
MINUTES_AHEAD = 10
MINUTES_BACK = -10 * 366 * 24 * 60
MOST_NUMBER = 2**24 - 1
FAR_NUMBER = 9_000_000
# A number of the earlier form stands for this many of today's.
NUMBERS_A_NUMBER = 256
EARLIER_NUMBERS = (0, 7, MOST_NUMBER // NUMBERS_A_NUMBER - 1)
NONE_IS_LEFT = "no number is left"

Clock = Mapping[str, str]


@dataclass(frozen=True)
class Given:
    """What a start gave: the tag of its write, and the context of a read behind it."""

    tag: str
    context: str

    @property
    def number(self) -> int:
        return vnode_of(self.tag) // VNODES_PER_NUMBER


def minute() -> int:
    """The minutes since 2026 began: a start's number is at least that."""
    return int(time.time() - FIRST_MINUTE_SECONDS) // 60


def earlier_form(number: int) -> bytes:
    """The file of a number in the earlier form, with its seal."""
    text = b"%d\n" % number
    return text + hashlib.sha1(text).hexdigest().encode() + b"\n"


def number_in(folder: Path) -> int:
    """The number that a folder names as its last start's."""
    line = (folder / kept.NUMBER).read_text(encoding="ascii").splitlines()[0]
    if not line.startswith("number "):
        raise ValueError(f"the number is spelled {line!r}")
    return int(line.removeprefix("number "))


def write(server: Server, value: bytes) -> Given:
    """Writes without having read, and reads then."""
    with server.client() as client:
        tag = client.must(204, "PUT", KEY, value).tag
        return Given(tag, client.ask("GET", KEY).context)


@dataclass
class Store:
    """A folder of its own, and all that its starts gave, lost ones too."""

    found: Findings
    program: Path
    folder: Path
    given: list[Given] = field(default_factory=list)

    def start(self, what: str, clock: Clock | None = None, end: Callable[[Server], object] = Server.stop_in_order) -> Given:
        """A start that writes. Its number has to be above all that were given, and be what the folder names then."""
        with Server.keep(self.program, self.folder, environment=clock) as server:
            given = write(server, f"value {len(self.given)}".encode())
            end(server)
        before = max((one.number for one in self.given), default=-1)
        self.found.hold(given.number > before, f"{what}: number {given.number} behind {before}")
        self.found.hold(given.number == number_in(self.folder), f"{what}: number {given.number}, not {number_in(self.folder)}")
        self.given.append(given)
        return given

    def try_in_a_row(self, starts: int, earlier: Clock) -> None:
        least = minute()
        for _ in range(starts):
            given = self.start("in a row")
        self.found.hold(given.number >= least, f"in a row: number {given.number} in the minute {least}")
        back = self.start("by a clock that was set back", earlier)
        self.found.hold(back.number == given.number + 1, f"by a clock that was set back: number {back.number} behind {given.number}")

    def try_lost(self, what: str, lose: Callable[[], object], clock: Clock | None = None) -> None:
        """Loses what two starts wrote, and has their contexts meet the start behind that."""
        lost = [self.start("what is lost"), self.start("what is lost", end=Server.kill)]
        lose()
        least = minute() + (MINUTES_AHEAD if clock else 0)
        with Server.keep(self.program, self.folder, environment=clock) as server:
            now = write(server, what.encode())
            with server.client() as client:
                answers = [client.ask("PUT", KEY, b"stale", one.context) for one in lost]
                read = client.ask("GET", KEY, Accept="multipart/mixed")
            server.stop_in_order()
        self.found.hold(now.tag not in [one.tag for one in self.given], f"{what}: the tag {now.tag} comes twice")
        self.found.hold(least <= now.number <= least + 1, f"{what}: number {now.number} in the minute {least}")
        refused = [(answer.status, answer.body.strip()) for answer in answers]
        self.found.hold(refused == [(412, b"P1")] * len(lost), f"{what}: contexts of what is lost: {refused}")
        self.found.hold(what.encode() in read.body and b"stale" not in read.body, f"{what}: what was written stands, and not {read}")

    def try_put_back(self, clock: Clock | None) -> None:
        self.start("what is copied")
        with kept.copied(self.folder) as copy:

            def put_back() -> None:
                shutil.rmtree(self.folder)
                shutil.copytree(copy, self.folder)
                while clock is None and minute() <= max(one.number for one in self.given):
                    time.sleep(1)

            self.try_lost("put back" if clock else "put back a while later", put_back, clock)

    def empty(self) -> None:
        for path in self.folder.iterdir():
            path.unlink()

    def try_settings(self) -> None:
        settings, least = self.folder / kept.SETTINGS, FAR_NUMBER
        for text in (f"number {least}\n", f"snapshot 0\nnumber {least + 1}\n", f"number {least}\nsnapshot 0\n"):
            settings.write_text(text, encoding="ascii")
            given = self.start(f"settings {text!r}")
            self.found.hold(given.number == least, f"settings {text!r}: number {given.number} in place of {least}")
            least += 1
        settings.write_text(f"number {MOST_NUMBER}\n", encoding="ascii")
        given = self.start("the last number")
        self.found.hold(given.number == MOST_NUMBER, f"the last number: {given.number}")
        self.try_none_left("behind the last number")

    def try_none_left(self, what: str) -> None:
        whole, refusal = kept.contents(self.folder), kept.refusal(self.program, self.folder)
        is_told = refusal.status == 1 and refusal.printed.startswith("refused ") and NONE_IS_LEFT in refusal.printed
        self.found.hold(is_told and kept.contents(self.folder) == whole, f"{what}: {refusal}")

    def try_earlier_form(self, number: int) -> None:
        (self.folder / kept.NUMBER).write_bytes(earlier_form(number))
        what = f"behind the earlier number {number}"
        least = max((number + 1) * NUMBERS_A_NUMBER, minute())
        given = self.start(what)
        self.found.hold(least <= given.number <= least + 1, f"{what}: {given.number} in place of {least}")

    def try_last_of_earlier_form(self) -> None:
        self.start("what the last earlier number stands behind")
        (self.folder / kept.NUMBER).write_bytes(earlier_form(MOST_NUMBER // NUMBERS_A_NUMBER))
        self.try_none_left("behind the last earlier number")


def tries(size: Size, later: Clock, earlier: Clock) -> list[Callable[[Store], None]]:
    """What is tried, each with a folder of its own."""
    forms = [lambda store, number=number: store.try_earlier_form(number) for number in EARLIER_NUMBERS]
    waiting = [lambda store: store.try_put_back(None)] if size.waits else []
    return [
        lambda store: store.try_in_a_row(size.starts, earlier),
        lambda store: store.try_put_back(later),
        lambda store: store.try_lost("emptied", store.empty, later),
        lambda store: store.try_lost("removed", lambda: shutil.rmtree(store.folder), later),
        Store.try_settings,
        Store.try_last_of_earlier_form,
        *forms,
        *waiting,
    ]


def run(program: Path, seed: int, size: Size) -> Result:
    found, count = Findings(), 0
    with kept.folders() as folder:
        ahead = str(library("later.c", folder / "later.so"))
        later, earlier = ({"LD_PRELOAD": ahead, "MINUTES_AHEAD": str(minutes)} for minutes in (MINUTES_AHEAD, MINUTES_BACK))
        all_of_them = tries(size, later, earlier)
        for trial in random.Random(seed).sample(all_of_them, len(all_of_them)):
            with kept.folders() as own:
                store = Store(found, program, own)
                trial(store)
                count += len(store.given)
    return found.result(f"{count} starts of {len(all_of_them)} folders")
