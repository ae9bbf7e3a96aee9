"""The calls of a kept store as strace tells them, and the device under its folder: what a power cut may leave there at each of them.

The model of the device is the one that the store's proofs suppose (docs/PROVED.md, log_system), and POSIX's for names. A file whose
force has ended holds what was written to it before that force began. What was written since is there, absent, torn at any byte, zeros
in places, or anything else; what stood before it stays. Behind a force that failed none counts, until the file is emptied. A folder
whose force has ended has the names that it had when that began. Of changes of names since each may be on the device or not, but for
one order: of files that were removed, the first removed goes first.
"""
from __future__ import annotations

import functools
import os
import random
import re
import subprocess
import time
from collections.abc import Iterable, Iterator, Mapping, Sequence
from dataclasses import dataclass, field
from pathlib import Path

from server import AT_A_PORT_OF_THE_SYSTEM, HEAD_END, Server
from trial import Skipped, tool

# All calls by which a server may change a folder or answer a client. One that this model doesn't know is told as such.
KNOWN_CALLS = ("openat", "close", "write", "ftruncate", "fsync", "fdatasync", "rename", "unlink", "accept4", "sendto")
UNKNOWN_CALLS = (
    "open", "creat", "writev", "pwrite64", "pwritev", "pwritev2", "sendmsg", "sendfile", "copy_file_range", "fallocate", "truncate",
    "msync", "sync_file_range", "renameat", "renameat2", "unlinkat", "link", "linkat", "symlink", "dup", "dup2", "dup3",
)  # fmt: skip
MOST_BYTES = 2**23
LINE = re.compile(r"^(\d+) +(.*)$")
RESUMED = re.compile(r"^<\.\.\. (\w+) resumed>(.*)$")
UNFINISHED = " <unfinished ...>"
CALL = re.compile(r"^(\w+)\((.*)$")
RESULT = re.compile(r"\) += (-?\d+)[^=]*$")
TEXT = re.compile(r'"((?:\\x[0-9a-f]{2})*)"')
PORT = re.compile(r"htons\((\d+)\)")
NUMBER = re.compile(r"^(\d+)")
LENGTH = re.compile(rb"\r\ncontent-length: (\d+)", re.IGNORECASE)

BLOCK_BYTES = 512
START_SECONDS = 30
NOT_YET = 2**62


@dataclass
class Call:
    """A call of the system: the places in the trace where it began and ended, counted in lines, and what it was asked and answered."""

    name: str
    text: str
    began: int
    ended: int = NOT_YET
    result: int | None = None

    @property
    def is_done(self) -> bool:
        return self.result is not None and self.result >= 0

    @property
    def descriptor(self) -> int:
        return int(NUMBER.match(self.text).group(1))

    def texts(self) -> list[bytes]:
        return [bytes.fromhex(text.replace("\\x", "")) for text in TEXT.findall(self.text)]

    def data(self) -> bytes:
        """What it wrote or sent: as much of it as the system took."""
        data = self.texts()[0]
        return data if self.result is None else data[: max(self.result, 0)]


def calls_of(lines: Iterable[str], first: int = 0) -> list[Call]:
    """The calls that lines of a trace tell, of which the first has this place, in the order in which they began."""
    calls, under_way = [], {}
    for place, line in enumerate(lines, first):
        told = LINE.match(line)
        if told is None or told[2].startswith(("+++", "---")):
            continue
        thread, text = told.groups()
        resumed = RESUMED.match(text)
        if resumed:
            call = under_way.pop(thread)
            call.text += resumed[2]
        elif found := CALL.match(text):
            call = Call(found[1], found[2].removesuffix(UNFINISHED), place)
            calls.append(call)
        else:
            continue
        if not resumed and text.endswith(UNFINISHED):
            under_way[thread] = call
            continue
        ended = RESULT.search(call.text)
        if ended:
            call.ended, call.result = place, int(ended[1])
    return calls


# A file and the names of a folder on a device


@dataclass(frozen=True)
class Span:
    """Where something began and ended in a trace."""

    began: int
    ended: int


@dataclass(frozen=True)
class Change:
    """A change of a file: bytes were written behind its end, or it was cut to a length."""

    when: Span
    data: bytes = b""
    cut_to: int | None = None


def forced_count(changes: Sequence[Change | Naming], forces: Sequence[Span], place: int) -> int:
    """How many of the first changes were forced, at a place: they had ended when a force began that has ended."""
    begun = max((force.began for force in forces if force.ended <= place), default=-1)
    return sum(change.when.ended <= begun for change in changes)


class File:
    """A file, whatever names it has: what it held at first, its changes, and its forces, but for those behind one that failed."""

    def __init__(self, first: bytes = b""):
        self.first = first
        self.changes: list[Change] = []
        self.forces: list[Span] = []
        self.is_trusted = True
        self.length = len(first)

    def note(self, change: Change) -> None:
        self.changes.append(change)
        self.length = self.length + len(change.data) if change.cut_to is None else min(self.length, change.cut_to)
        self.is_trusted = self.is_trusted or change.cut_to == 0

    def at(self, place: int) -> tuple[bytes, list[Change]]:
        """What was forced of it at a place in the trace, and its changes since."""
        count = forced_count(self.changes, self.forces, place)
        return content_with(self.first, self.changes[:count]), [change for change in self.changes[count:] if change.when.began <= place]

    @property
    def is_settled(self) -> bool:
        return all(change.when.ended != NOT_YET for change in self.changes)

    def whole(self) -> bytes:
        return content_with(self.first, self.changes)


@dataclass(frozen=True)
class Naming:
    """A change of names: which file each of some names leads to from then on, if any."""

    when: Span
    names: Mapping[str, File | None]

    @property
    def is_removal(self) -> bool:
        return set(self.names.values()) == {None}


@dataclass
class Cut:
    """What a power cut left: each file's bytes by its name, and in words which of the changes that weren't forced are among them."""

    files: dict[str, bytes]
    words: list[str]

    def lay(self, folder: Path) -> None:
        folder.mkdir()
        for name, data in self.files.items():
            (folder / name).write_bytes(data)


class Device:
    """The files of a folder as a device has them, from what it held at first by the calls that were made on it."""

    def __init__(self, folder: Path):
        self.folder = folder
        self.first = {path.name: File(path.read_bytes()) for path in folder.iterdir()}
        self.now: dict[str, File] = dict(self.first)
        self.namings: list[Naming] = []
        self.forces: list[Span] = []

    def name_in(self, path: bytes) -> str | None:
        """The name of a file of the folder."""
        place = Path(path.decode())
        return place.name if place.parent == self.folder else None

    def name(self, when: Span, names: Mapping[str, File | None]) -> None:
        self.namings.append(Naming(when, names))
        for name, file in names.items():
            if file is None:
                self.now.pop(name, None)
            else:
                self.now[name] = file

    def places(self) -> list[int]:
        """Where something changes: behind each beginning and each end of a change or a force."""
        files = [*self.first.values(), *(file for naming in self.namings for file in naming.names.values() if file is not None)]
        spans = [naming.when for naming in self.namings] + self.forces
        for file in {id(file): file for file in files}.values():
            spans += [change.when for change in file.changes] + file.forces
        return sorted({place for span in spans for place in (span.began, span.ended) if place != NOT_YET})

    def whole(self) -> dict[str, bytes | None]:
        """What stands in the folder behind all calls; None where a kill may have kept a change of a file or a name from being done."""
        open_names = {name for naming in self.namings if naming.when.ended == NOT_YET for name in naming.names}
        return {name: file.whole() if name not in open_names and file.is_settled else None for name, file in self.now.items()}

    @property
    def is_settled(self) -> bool:
        """Whether each change that was begun has ended."""
        return all(naming.when.ended != NOT_YET for naming in self.namings) and all(file.is_settled for file in self.now.values())

    def cut(self, place: int, chance: random.Random) -> Cut:
        """What a cut may leave behind a place of the trace."""
        names, words = self.names_left(place, chance)
        left = Cut({}, words)
        contents: dict[int, bytes] = {}
        stale = b"".join(file.whole() for file in names.values())
        for name, file in names.items():
            if id(file) not in contents:
                content, told = content_left(file, place, chance, stale)
                contents[id(file)] = content
                left.words += [f"{name}: {told}"] if told else []
            left.files[name] = contents[id(file)]
        return left

    def names_left(self, place: int, chance: random.Random) -> tuple[dict[str, File], list[str]]:
        count = forced_count(self.namings, self.forces, place)
        names = dict(self.first)
        for naming in self.namings[:count]:
            rename(names, naming)
        since = [naming for naming in self.namings[count:] if naming.when.began <= place]
        kept = some_of(since, chance)
        for naming in kept:
            rename(names, naming)
        return names, [f"{len(kept)} of {len(since)} changes of names"] if since else []


def rename(names: dict[str, File], naming: Naming) -> None:
    for name, file in naming.names.items():
        if file is None:
            names.pop(name, None)
        else:
            names[name] = file


def some_of(since: list[Naming], chance: random.Random) -> list[Naming]:
    """Changes of names that a device may have: none, all, or any of them, but of removals the first ones."""
    way = chance.randrange(4)
    if way < 2:
        return since if way else []
    removals = sum(naming.is_removal for naming in since)
    left, kept = chance.randint(0, removals), []
    for naming in since:
        if naming.is_removal:
            left -= 1
            if left >= 0:
                kept.append(naming)
        elif chance.random() < 0.5:
            kept.append(naming)
    return kept


def content_left(file: File, place: int, chance: random.Random, stale: bytes) -> tuple[bytes, str]:
    """What a device may have of a file, and what that is in words: nothing to say where all of it was forced."""
    content, since = file.at(place)
    if not since:
        return content, ""
    way = chance.choice(WAYS)
    if way == "absent":
        return content, way
    front = content_with(content, since)
    if way != "there":
        count = chance.randint(0, len(since) - 1)
        front = content_with(content, since[:count])
        front += since[count].data[: chance.randrange(len(since[count].data) + 1)]
    if way in ("there", "torn"):
        return front, f"{way}, {len(front)} bytes"
    stable = min([len(content), *(change.cut_to for change in since if change.cut_to is not None)])
    all_of_it = content_with(content, since)
    return spoilt(way, front[:stable], (front if chance.random() < 0.5 else all_of_it)[stable:], stale, chance), f"{way} behind {stable}"


WAYS = ("absent", "there", "torn", "torn", "zeros", "blocks", "anything")


def content_with(content: bytes, changes: Iterable[Change]) -> bytes:
    """What changes make of a content."""
    parts = [content]
    for change in changes:
        if change.cut_to is None:
            parts.append(change.data)
        else:
            parts = [b"".join(parts)[: change.cut_to]]
    return b"".join(parts)


def spoilt(way: str, stable: bytes, rest: bytes, stale: bytes, chance: random.Random) -> bytes:
    """A file whose bytes behind those that were forced are partly zeros, or partly something else."""
    at = chance.randint(0, len(rest))
    if way == "zeros":
        return stable + rest[:at] + bytes(len(rest) - at + chance.choice((0, 0, 4_096)))
    if way == "blocks":
        return stable + b"".join(bytes(len(block)) if chance.random() < 0.5 else block for block in blocks_of(rest, len(stable)))
    first = chance.randint(0, len(stale))
    other = chance.choice((chance.randbytes(len(rest) - at), stale[first : first + len(rest) - at]))
    return stable + rest[:at] + other


def blocks_of(data: bytes, offset: int) -> Iterator[bytes]:
    """The blocks of a device that data take which stand at an offset of a file."""
    first = BLOCK_BYTES - offset % BLOCK_BYTES
    yield data[:first]
    for place in range(first, len(data), BLOCK_BYTES):
        yield data[place : place + BLOCK_BYTES]


# A trace

# A client's connection: to which of the servers of a folder, counted from 0, and from which port.
Connection = tuple[int, int]


@dataclass
class Talk:
    """What was sent on a client's connection, and where in the trace each whole answer was sent."""

    sent: bytes = b""
    answers: list[int] = field(default_factory=list)

    def send(self, data: bytes, place: int) -> None:
        self.sent += data
        while True:
            head, end, rest = self.sent.partition(HEAD_END)
            found = LENGTH.search(head)
            length = int(found[1]) if found else 0
            if not end or len(rest) < length:
                return
            self.sent = rest[length:]
            self.answers.append(place)


def moment_of(call: Call) -> int:
    """When a call counts for the numbers of descriptors: one that gives a number when it ends, another when it begins."""
    return call.ended if call.name in ("openat", "accept4") else call.began


class Trace:
    """What strace told of the servers of a folder, one after another: the device under it, their answers, and their forces of logs."""

    def __init__(self, folder: Path):
        self.device = Device(folder)
        self.length = self.servers = 0
        self.talks: dict[Connection, Talk] = {}
        self.logs: dict[int, File] = {}
        self.log_forces: list[Span] = []
        self.unknown: set[str] = set()
        self.open: dict[int, File | Talk | Device] = {}

    def read(self, lines: list[str]) -> None:
        """Takes what was told of one more server."""
        self.open = {}
        for call in sorted(calls_of(lines, self.length), key=moment_of):
            self.see(call)
        self.length += len(lines)
        self.servers += 1

    def see(self, call: Call) -> None:
        made = getattr(self, f"see_{call.name}", None)
        if made is None:
            self.unknown.add(call.name)
        elif call.is_done or call.result is None:
            made(call)
        elif isinstance(file := self.forced_by(call), File):
            file.is_trusted = False

    def unforced_writes(self) -> int:
        """How many writes of logs weren't forced at the end."""
        return sum(len(log.at(NOT_YET)[1]) for log in self.logs.values())

    def forced_by(self, call: Call) -> File | Talk | Device | None:
        """What a call forces, if it is one that forces."""
        return self.open.get(call.descriptor) if call.name in ("fsync", "fdatasync") else None

    def answered(self, connection: Connection, number: int) -> int:
        """Where the answer to a request of a connection was sent, counted from 0; at no place where it wasn't."""
        talk = self.talks.get(connection)
        return talk.answers[number] if talk and number < len(talk.answers) else NOT_YET

    def see_openat(self, call: Call) -> None:
        path = call.texts()[0]
        name = self.device.name_in(path)
        if name is not None:
            self.open_file(call, name)
        elif Path(path.decode()) == self.device.folder and call.is_done:
            self.open[call.result] = self.device

    def open_file(self, call: Call, name: str) -> None:
        when, file = Span(call.began, call.ended), self.device.now.get(name)
        if file is None and "O_CREAT" in call.text:
            file = File()
            self.device.name(when, {name: file})
        elif file is not None and "O_TRUNC" in call.text and file.length:
            file.note(Change(when, cut_to=0))
        if file is None:
            return
        if call.is_done:
            self.open[call.result] = file
        if name.startswith("log-"):
            self.logs[id(file)] = file

    def see_close(self, call: Call) -> None:
        self.open.pop(call.descriptor, None)

    def see_write(self, call: Call) -> None:
        file = self.open.get(call.descriptor)
        if isinstance(file, File):
            file.note(Change(Span(call.began, call.ended), data=call.data()))

    def see_ftruncate(self, call: Call) -> None:
        file = self.open.get(call.descriptor)
        if isinstance(file, File):
            file.note(Change(Span(call.began, call.ended), cut_to=int(call.text.split(", ")[1].split(")")[0])))

    def see_fsync(self, call: Call) -> None:
        file, when = self.forced_by(call), Span(call.began, call.ended)
        if isinstance(file, Device) or isinstance(file, File) and file.is_trusted:
            file.forces.append(when)
            self.log_forces += [when] if id(file) in self.logs else []

    see_fdatasync = see_fsync

    def see_rename(self, call: Call) -> None:
        old, new = map(self.device.name_in, call.texts()[:2])
        if old is not None and new is not None:
            self.device.name(Span(call.began, call.ended), {old: None, new: self.device.now.get(old)})

    def see_unlink(self, call: Call) -> None:
        name = self.device.name_in(call.texts()[0])
        if name is not None:
            self.device.name(Span(call.began, call.ended), {name: None})

    def see_accept4(self, call: Call) -> None:
        port = PORT.search(call.text)
        if call.is_done and port:
            self.talks[self.servers, int(port[1])] = self.open[call.result] = Talk()

    def see_sendto(self, call: Call) -> None:
        talk = self.open.get(call.descriptor)
        if isinstance(talk, Talk):
            talk.send(call.data(), call.began)


@functools.cache
def strace() -> str:
    """The path of strace, where it may trace: else a trial is skipped."""
    path = tool("strace")
    tried = subprocess.run([path, "-D", "-f", "-q", "-o", os.devnull, "true"], stdin=subprocess.DEVNULL, stderr=subprocess.PIPE, text=True)
    if tried.returncode or tried.stderr:
        raise Skipped(f"no right to trace: {tried.stderr.strip()[:80]}")
    return path


def traced_words(program: Path, folder: Path, workers: int, told: Path, injected: str = "") -> list[str]:
    """The command by which a kept store runs under strace. Its first process is the server, and strace its grandchild."""
    calls = ",".join(KNOWN_CALLS + UNKNOWN_CALLS)
    words = [strace(), "-D", "-f", "-q", "--seccomp-bpf", "-xx", "-s", str(MOST_BYTES), "-e", f"trace={calls}", "-o", str(told)]
    words += ["-e", f"inject={injected}"] if injected else []
    return [*words, str(program), "keep", str(folder), AT_A_PORT_OF_THE_SYSTEM, str(workers)]


class Traced:
    """A kept store at whose calls strace looks from its first on, and some of whose calls it has fail or be slow, in strace's words."""

    def __init__(self, program: Path, trace: Trace, workers: int, told: Path, injected: str = ""):
        self.trace, self.told = trace, told
        words = traced_words(program, trace.device.folder, workers, told, injected)
        self.server = Server(Path(words[0]), words[1:])

    def read(self) -> None:
        """Has the trace take what was seen, once the server has ended. Its pipes were open until strace had ended, too."""
        self.trace.read(self.told.read_text(encoding="ascii", errors="replace").splitlines())


def begin_and_kill(program: Path, trace: Trace, told: Path, calls: int) -> None:
    """Starts a server and kills it once so many calls were told, maybe before it listens, and has the trace take what was seen."""
    words = traced_words(program, trace.device.folder, 1, told)
    with subprocess.Popen(words, stdin=subprocess.DEVNULL, stdout=subprocess.PIPE, stderr=subprocess.DEVNULL) as server:
        until = time.monotonic() + START_SECONDS
        while lines_of(told) <= calls and server.poll() is None and time.monotonic() < until:
            time.sleep(0.001)
        server.kill()
        server.stdout.read()  # until strace has ended, too
    trace.read(told.read_text(encoding="ascii", errors="replace").splitlines())


def lines_of(told: Path) -> int:
    """How many lines were told by now. strace looks at a server from the first one on, and can't be killed well before."""
    return told.read_bytes().count(b"\n") if told.exists() else 0
