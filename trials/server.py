"""One class for a server of the store, and one for a client of it."""
from __future__ import annotations

import base64
import contextlib
import itertools
import os
import socket
import struct
import subprocess
import threading
import time
from collections.abc import Callable, Iterable, Iterator, Mapping, Sequence
from dataclasses import dataclass
from pathlib import Path
from typing import Any

HOST = "127.0.0.1"
AT_A_PORT_OF_THE_SYSTEM = f"{HOST}:0"
RECEIVED_BYTES = 65_536
MIB = 2**20
TICKS_PER_SECOND = os.sysconf("SC_CLK_TCK")

START_SECONDS = 120
STOP_SECONDS = 300
ANSWER_SECONDS = 100

HEAD_END = b"\r\n\r\n"
CONTEXT, TAG = "x-riak-vclock", "x-riak-tag"
PING_PATH = "/ping"
VNODES_PER_NUMBER = 256


# Requests and answers


def request(method: str, path: str, body: bytes | None = None, context: str | None = None, **heads: str) -> bytes:
    """The bytes of a request. A head such as Content_Type is written with a hyphen."""
    lines = [f"{method} {path} HTTP/1.1", "Host: h", *(f"{name.replace('_', '-')}: {value}" for name, value in heads.items())]
    if context is not None:
        lines.append(f"X-Riak-Vclock: {context}")
    if body is not None:
        lines.append(f"Content-Length: {len(body)}")
    return "\r\n".join(lines).encode() + HEAD_END + (body or b"")


PING = request("GET", PING_PATH)
LAST_PING = request("GET", PING_PATH, Connection="close")
PONG = b"HTTP/1.1 200 OK\r\nContent-Type: text/plain\r\nContent-Length: 2\r\nX-Content-Type-Options: nosniff\r\nServer: dvvstore\r\n\r\nOK"


@dataclass(frozen=True)
class Answer:
    """What a request was answered. Names of heads are in small letters."""

    status: int
    heads: Mapping[str, str]
    body: bytes

    @property
    def context(self) -> str | None:
        return self.heads.get(CONTEXT)

    @property
    def tag(self) -> str | None:
        return self.heads.get(TAG)

    @property
    def is_pong(self) -> bool:
        return (self.status, self.body) == (200, b"OK")


@dataclass(frozen=True)
class ContextEntry:
    """An entry of a context: so many writes of a vnode."""

    vnode: int
    count: int

    @property
    def number(self) -> int:
        """The number of the start whose vnode it is."""
        return self.vnode // VNODES_PER_NUMBER

    @property
    def index(self) -> int:
        return self.vnode % VNODES_PER_NUMBER


# How long an entry of a context is, by the context's version.
ENTRY_BYTES = {2: 11, 3: 12}


def entries_of(context: str) -> list[ContextEntry]:
    """The entries of a context, as its format has them."""
    spelled = base64.b64decode(context)
    version, count = struct.unpack_from(">BH", spelled)
    length = ENTRY_BYTES.get(version)
    if length is None or len(spelled) != 3 + length * count:
        raise ValueError(f"the context {context!r}")
    return [entry_of(version, spelled[3 + length * place :]) for place in range(count)]


def entry_of(version: int, spelled: bytes) -> ContextEntry:
    """The entry in front of these bytes: the second version has a number of 16 bits, which stands for 256 numbers of the third's 24."""
    if version == 2:
        index, number, count = struct.unpack_from(">BHQ", spelled)
        return ContextEntry(number * 65_536 + index, count)
    index, high, low, count = struct.unpack_from(">BBHQ", spelled)
    return ContextEntry((high * 65_536 + low) * VNODES_PER_NUMBER + index, count)


def vnode_of(tag: str) -> int:
    """The vnode that gave a tag."""
    return int(tag.partition("-")[0])


def free_port() -> int:
    """A port that nobody listens at."""
    with socket.socket() as found:
        found.bind((HOST, 0))
        return found.getsockname()[1]


# A client


class HungUp(ConnectionError):
    """The server ended the connection before an answer was whole."""


class Client:
    """A connection that is kept, on which requests are asked one after another or many together."""

    def __init__(self, address: tuple[str, int], seconds: float = ANSWER_SECONDS):
        self.socket = socket.create_connection(address, timeout=seconds)
        self.socket.setsockopt(socket.IPPROTO_TCP, socket.TCP_NODELAY, 1)
        self.come = b""

    def send(self, data: bytes) -> None:
        self.socket.sendall(data)

    def receive(self) -> None:
        """Waits for more bytes."""
        more = self.socket.recv(RECEIVED_BYTES)
        if not more:
            raise HungUp(f"behind {self.come[-80:]!r}")
        self.come += more

    def until(self, end: bytes) -> bytes:
        """The bytes up to an end, which is taken too."""
        while end not in self.come:
            self.receive()
        found, _, self.come = self.come.partition(end)
        return found

    def whole_answer(self) -> Answer | None:
        """Takes the answer in front of what has come, where it is whole."""
        head, end, rest = self.come.partition(HEAD_END)
        if not end:
            return None
        status, *lines = head.decode().split("\r\n")
        heads = {name.lower(): value for name, _, value in (line.partition(": ") for line in lines)}
        length = int(heads.get("content-length", "0"))
        if len(rest) < length:
            return None
        self.come = rest[length:]
        return Answer(int(status.split()[1]), heads, rest[:length])

    def hear(self) -> Answer:
        """The next answer."""
        while (answer := self.whole_answer()) is None:
            self.receive()
        return answer

    def ask(self, method: str, path: str, body: bytes | None = None, context: str | None = None, **heads: str) -> Answer:
        self.send(request(method, path, body, context, **heads))
        return self.hear()

    def ask_together(self, requests: Sequence[bytes]) -> list[Answer]:
        """The answers to requests that are sent at once."""
        self.send(b"".join(requests))
        return [self.hear() for _ in requests]

    def must(self, status: int, method: str, path: str, body: bytes | None = None, context: str | None = None) -> Answer:
        """The answer to a request that has to have this status."""
        answer = self.ask(method, path, body, context)
        if answer.status != status:
            raise ValueError(f"{method} {path}: {answer.status} {answer.body[:200]!r} in place of {status}")
        return answer

    def ping(self) -> bool:
        return self.ask("GET", PING_PATH).is_pong

    def read_to_end(self) -> tuple[bytes, bool]:
        """What comes until the end, and whether the connection was closed then, and not reset or left open."""
        try:
            while True:
                self.receive()
        except HungUp:
            return self.come, True
        except (ConnectionResetError, TimeoutError):
            return self.come, False

    def close(self) -> None:
        self.socket.close()

    def reset(self) -> None:
        """Leaves so that the server is told of a connection that is reset."""
        self.socket.setsockopt(socket.SOL_SOCKET, socket.SO_LINGER, struct.pack("ii", 1, 0))
        self.close()

    def send_without_waiting(self, data: bytes) -> int:
        """Sends as much as the system takes at once, and gives how many bytes are left. The connection waits for nothing from then on."""
        self.socket.setblocking(False)
        left = memoryview(data)
        with contextlib.suppress(BlockingIOError):
            while left:
                left = left[self.socket.send(left) :]
        return len(left)

    def __enter__(self) -> Client:
        return self

    def __exit__(self, *_: object) -> None:
        self.close()


# A server


@dataclass(frozen=True)
class Line:
    """A line that a process wrote, and when."""

    moment: float
    text: str


class Lines(threading.Thread):
    """The lines of a stream as they come."""

    def __init__(self, stream: Iterable[str]):
        super().__init__(daemon=True)
        self.stream, self.lines, self.is_whole = stream, [], False
        self.news = threading.Condition()
        self.start()

    def run(self) -> None:
        for line in self.stream:
            self.note(Line(time.monotonic(), line.rstrip("\n")))
        self.note(None)

    def note(self, line: Line | None) -> None:
        with self.news:
            if line is None:
                self.is_whole = True
            else:
                self.lines.append(line)
            self.news.notify_all()

    def __len__(self) -> int:
        return len(self.lines)

    def texts(self, first: int = 0) -> list[str]:
        return [line.text for line in self.lines[first:]]

    def at(self, place: int, seconds: float) -> str | None:
        """The line at a place, once it has come; None where the stream ends before it, or the time."""
        with self.news:
            self.news.wait_for(lambda: len(self.lines) > place or self.is_whole, seconds)
            return self.lines[place].text if len(self.lines) > place else None


class NoStart(Exception):
    """A server that doesn't listen."""

    def __init__(self, printed: list[str], told: list[str]):
        super().__init__(f"the server didn't start: {printed} {told}")
        self.printed, self.told = printed, told


@dataclass(frozen=True)
class End:
    """How a server ended: its status, what it printed behind `listening`, and what it told on standard error, from its start on."""

    status: int
    printed: list[str]
    told: list[str]

    @property
    def is_in_order(self) -> bool:
        """Whether the server says that what it did is one run, and nothing went wrong."""
        return self.status == 0 and self.printed[-1:] == ["audit ok"]


class Server:
    """A running server of the store, on a port that the system chose."""

    running: set[Server] = set()

    def __init__(
        self,
        program: Path,
        words: Sequence[str],
        *,
        stdin: int = subprocess.PIPE,
        before: Callable[[], None] | None = None,
        environment: Mapping[str, str] | None = None,
    ):
        self.begun = time.monotonic()
        self.process = subprocess.Popen(
            [program, *words],
            stdin=stdin,
            stdout=subprocess.PIPE,
            stderr=subprocess.PIPE,
            text=True,
            preexec_fn=before,
            env={**os.environ, **(environment or {})},
        )
        Server.running.add(self)
        self.printed, self.told = Lines(self.process.stdout), Lines(self.process.stderr)
        self.first_lines = self.wait_until_it_listens()
        self.start_seconds = time.monotonic() - self.begun

    @classmethod
    def serve(cls, program: Path, workers: int = 2, connections: int | None = None, **how: Any) -> Server:
        """A store in memory alone."""
        count = [] if connections is None else [str(connections)]
        return cls(program, ["serve", AT_A_PORT_OF_THE_SYSTEM, str(workers), *count], **how)

    @classmethod
    def keep(cls, program: Path, folder: Path, workers: int = 2, **how: Any) -> Server:
        """A store that begins with what a folder holds."""
        return cls(program, ["keep", str(folder), AT_A_PORT_OF_THE_SYSTEM, str(workers)], **how)

    def wait_until_it_listens(self) -> list[str]:
        """The lines before the one of the address."""
        for place in itertools.count():
            line = self.printed.at(place, START_SECONDS)
            if line is None:
                self.kill()
                raise NoStart(self.printed.texts(), self.told.texts())
            if line.startswith("listening "):
                host, _, port = line.removeprefix("listening ").rpartition(":")
                self.address = host, int(port)
                return self.printed.texts()[:place]

    @property
    def port(self) -> int:
        return self.address[1]

    @property
    def loaded(self) -> int | None:
        """How many records a kept store began with."""
        counts = [line.removeprefix("loaded ") for line in self.first_lines if line.startswith("loaded ")]
        return int(counts[0]) if counts else None

    # Clients

    def client(self, sent: bytes = b"", seconds: float = ANSWER_SECONDS) -> Client:
        """A client that has sent this."""
        client = Client(self.address, seconds)
        if sent:
            client.send(sent)
        return client

    def wait_until_it_answers(self) -> None:
        """A server answers from the end of the second in which it starts."""
        with self.client() as client:
            if not client.ping():
                raise ValueError("a ping is answered wrongly")

    # What it is told, and what it tells

    def say(self, line: str) -> None:
        self.process.stdin.write(line + "\n")
        self.process.stdin.flush()

    def snapshot(self, seconds: float = 120.0) -> str | None:
        """Asks for a snapshot, and gives the line that is told of it."""
        count = len(self.told)
        self.say("snapshot")
        return self.told.at(count, seconds)

    # What the system knows of it

    @property
    def pid(self) -> int:
        return self.process.pid

    @property
    def is_running(self) -> bool:
        return self.process.poll() is None

    def memory_bytes(self) -> int:
        return memory_bytes(self.pid)

    def peak_memory_bytes(self) -> int:
        return memory_bytes(self.pid, "VmHWM")

    def forget_peak_memory(self) -> None:
        """Has the system count the most memory anew."""
        Path(f"/proc/{self.pid}/clear_refs").write_text("5", encoding="ascii")

    def processor_seconds(self) -> float:
        """The seconds of processors that all its threads had, for themselves and in the system."""
        fields = Path(f"/proc/{self.pid}/stat").read_text(encoding="ascii").rpartition(")")[2].split()
        return sum(map(int, fields[11:13])) / TICKS_PER_SECOND

    def open_files(self) -> int:
        return len(os.listdir(f"/proc/{self.pid}/fd"))

    def settled_files(self, wanted: int, seconds: float = 30.0) -> int:
        """The number of open files, once it is as wanted or the time is over."""
        until = time.monotonic() + seconds
        while self.open_files() != wanted and time.monotonic() < until:
            time.sleep(0.1)
        return self.open_files()

    def threads(self) -> list[int]:
        return [int(name) for name in os.listdir(f"/proc/{self.pid}/task")]

    # Its end

    def end(self, seconds: float = STOP_SECONDS) -> End | None:
        """How it ends; None where it goes on for so long, and is killed then."""
        try:
            status = self.process.wait(seconds)
        except subprocess.TimeoutExpired:
            self.kill()
            return None
        self.reap()
        return End(status, self.printed.texts(len(self.first_lines) + 1), self.told.texts())

    def stop(self, seconds: float = STOP_SECONDS) -> End | None:
        """Stops it by its standard input."""
        self.say("stop")
        return self.end(seconds)

    def stop_in_order(self, seconds: float = STOP_SECONDS) -> None:
        """Stops it, and wants to hear that what it did is one run."""
        end = self.stop(seconds)
        if end is None or not end.is_in_order:
            raise ValueError(f"the server ended so: {end}")

    def kill(self) -> None:
        self.process.kill()
        self.process.wait()
        self.reap()

    def reap(self) -> None:
        """Hears the last lines of one that has ended, and lets its pipes go."""
        for lines in (self.printed, self.told):
            lines.join()
        for pipe in (self.process.stdin, self.process.stdout, self.process.stderr):
            if pipe is not None:
                with contextlib.suppress(BrokenPipeError):
                    pipe.close()
        Server.running.discard(self)

    @classmethod
    def kill_all(cls) -> None:
        """Kills those that a trial left, as one does that fails."""
        for server in list(cls.running):
            server.kill()

    def __enter__(self) -> Server:
        return self

    def __exit__(self, *_: object) -> None:
        if self in Server.running:
            self.kill()


def memory_bytes(pid: int, what: str = "VmRSS") -> int:
    """The memory of a process, as the system counts it under a name: what is resident, where nothing else is said."""
    lines = Path(f"/proc/{pid}/status").read_text(encoding="utf-8").splitlines()
    return next(int(line.split()[1]) * 1024 for line in lines if line.startswith(f"{what}:"))


@contextlib.contextmanager
def stopped_in_order(server: Server) -> Iterator[Server]:
    """A server that is stopped in order at the end, or killed where something fails before."""
    with server:
        yield server
        server.stop_in_order()
