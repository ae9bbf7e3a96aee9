"""Serves a kept store by service/dvvstore-service, and ends it by signals; copies its folder while it runs, and puts a copy back.

Two clients write keys of their own and note what was acknowledged, until the service is ended: by SIGTERM, by SIGINT or SIGTERM to
its whole process group, and by SIGTERM where it is the first process of a namespace, as in a container. It has to end with status
0, `kept N` and `audit ok`, nothing of its fifo may be left in the folder, and the next start has to have each acknowledged write.
Beside a client that takes nothing a second SIGTERM has to end it. SIGHUP has to bring a snapshot, of which a kill takes nothing
away. Where the service alone is killed its program is stopped by a line that is written to its standard input. A SIGTERM at any
moment of a start has to end it, and the folder to start again. Wrong words, a folder that isn't there and an address that can't be
bound have their statuses.

Copies are made by the line of docs/OPERATIONS.md, beside writers and snapshots: each has to start, and to have what was
acknowledged before the last whole snapshot. One is put back by the lines of that page, with a number above those of these starts,
which came quicker than one a minute: no tag may come twice, and a context of what the copy hasn't seen has to be refused.

Each number to be watched has to be printed by its line of that page, and a folder that its line makes has to be its owner's alone.

The unit has to pass `systemd-analyze verify`, where there is one.
"""
from __future__ import annotations

import contextlib
import os
import random
import re
import shutil
import signal
import stat
import subprocess
import threading
import time
from collections.abc import Callable, Iterator, Sequence
from dataclasses import dataclass
from pathlib import Path
from typing import Any

import kept
from server import AT_A_PORT_OF_THE_SYSTEM, End, HungUp, Server, request
from trial import TOP, Findings, Result, line_of_page, run_line

NAME = "service"
PROMISES = "As a service each signal stops it in order or keeps it, and a copy of its folder starts."
QUICK = True


@dataclass(frozen=True)
class Size:
    """How many starts are ended at a random moment, and how many copies are made."""

    hurried_starts: int
    copies: int


FULL = Size(hurried_starts=100, copies=20)
SHORT = Size(hurried_starts=6, copies=2)

WRAPPER = TOP / "service" / "dvvstore-service"
UNIT = TOP / "service" / "dvvstore.service"
PAGE = TOP / "docs" / "OPERATIONS.md"
MAKES_A_COPY, PUTS_IT_BACK, RAISES_THE_NUMBER = "-cf copy.tar", "-xf copy.tar", "number $N"
TAKEN = (0, 1)  # where a file was replaced while it was read it is 1
MAKES_A_FOLDER = "install -d -m"
OWNERS_FOLDER, OWNERS_FILE = 0o700, 0o600
# The lines that tell a number, each by a word of its own, and what they print. Those of systemd are tried by systemd.py.
NUMBERS = {
    "curl -sf": "OK",
    "grep VmRSS": r"VmRSS:\s+\d+ kB\n",
    "/fd | wc": r"\d+\n",
    "-mmin -5": r"[1-9]\d*\n",
    "df --output": r"\s*Avail Use%\n\s*\d+\s+\d+%\n",
}
STORES_PORT = "8098"
INSTALLED = "/usr/local/bin/dvvstore-service"
FILES = re.compile(rf"incarnation|lock|log-\d+|vnode-\d+\.records|hooks\.requests|{kept.SETTINGS}")

WRITERS = 2
WORKERS = 2
READS_TOGETHER = 64
REST_SECONDS = 0.0005
LEAST_LIFE_SECONDS, MOST_LIFE_SECONDS = 0.2, 0.5
MOST_HURRY_SECONDS = 0.06
CLIENT_SECONDS = 30
END_SECONDS = 120
BIG_BYTES = 65_536
BIG_READS = 1_024
SIGNALS = (signal.SIGTERM, signal.SIGINT, signal.SIGHUP, signal.SIGQUIT)


def as_a_leader() -> None:
    """Makes the process the first of a group of its own, with signals that do what they do by themselves."""
    os.setsid()
    for number in SIGNALS:
        signal.signal(number, signal.SIG_DFL)


def runs_in_group(leader: int) -> bool:
    """Whether a process of a group runs; one that has ended and that nobody waited for doesn't."""
    for path in Path("/proc").glob("[0-9]*/stat"):
        with contextlib.suppress(OSError):
            state, _, group = path.read_text(encoding="utf-8", errors="replace").rpartition(") ")[2].split()[:3]
            if int(group) == leader and state not in "ZX":
                return True
    return False


class Service(Server):
    """A server that the wrapper runs."""

    def __init__(self, program: Path, folder: Path, before: Sequence[str] = ()):
        words = [*before, str(WRAPPER), str(folder), AT_A_PORT_OF_THE_SYSTEM, str(WORKERS)]
        super().__init__(Path(words[0]), words[1:], before=as_a_leader, environment={"DVVSTORE": str(program)})

    def child(self) -> int:
        """The number of the process that the first one began."""
        return int(Path(f"/proc/{self.pid}/task/{self.pid}/children").read_text(encoding="ascii").split()[0])

    def signal(self, number: int) -> None:
        os.kill(self.pid, number)

    def signal_group(self, number: int) -> None:
        os.killpg(self.pid, number)

    def kill_group(self) -> None:
        with contextlib.suppress(ProcessLookupError):
            self.signal_group(signal.SIGKILL)

    def kill(self) -> None:
        self.kill_group()
        super().kill()

    def end(self, seconds: float = END_SECONDS) -> End | None:
        """How it ends, and with it the program, which is killed where it runs on for so long without its wrapper."""
        until = time.monotonic() + seconds
        with contextlib.suppress(subprocess.TimeoutExpired):
            self.process.wait(seconds)
            while runs_in_group(self.pid) and time.monotonic() < until:
                time.sleep(0.02)
            self.kill_group()
        return super().end(0)


# How it is ended, for each way that is tried: by which words it is begun, and what is done to it.
Way = Callable[[Service], None]
WAYS: dict[str, Way] = {
    "SIGTERM": lambda service: service.signal(signal.SIGTERM),
    "SIGINT to the group": lambda service: service.signal_group(signal.SIGINT),
    "SIGTERM to the group": lambda service: service.signal_group(signal.SIGTERM),
}
AS_FIRST = "SIGTERM as the first process"
IN_A_NAMESPACE = ("unshare", "--pid", "--fork", "--kill-child")
AS_A_USER = ("--user", "--map-root-user")


class Writer(threading.Thread):
    """Writes keys of its own one after another, and notes which were acknowledged, until its connection ends or it is over."""

    def __init__(self, server: Server, name: str):
        super().__init__()
        self.client, self.name_of_all = server.client(seconds=CLIENT_SECONDS), name
        self.acknowledged: list[str] = []
        self.is_over = False
        self.start()

    def run(self) -> None:
        with contextlib.suppress(HungUp, OSError), self.client:
            for number in range(10**9):
                key = f"{self.name_of_all}-{number}"
                if self.is_over or self.client.ask("PUT", f"/buckets/b/keys/{key}", key.encode()).status != 204:
                    break
                self.acknowledged.append(key)
                time.sleep(REST_SECONDS)


class Life:
    """A folder over many starts, and the keys that were acknowledged, each of which has its own name as its value."""

    def __init__(self, found: Findings, program: Path, folder: Path, chance: random.Random):
        self.found, self.program, self.folder, self.chance = found, program, folder, chance
        self.acknowledged: list[str] = []
        self.starts = 0

    def served(self, before: Sequence[str] = ()) -> Service:
        return Service(self.program, self.folder, before)

    @contextlib.contextmanager
    def written(self, server: Server) -> Iterator[list[Writer]]:
        """Writers for as long as it is needed; what they were acknowledged is noted then."""
        self.starts += 1
        writers = [Writer(server, f"w{self.starts}-{number}") for number in range(WRITERS)]
        try:
            yield writers
        finally:
            for writer in writers:
                writer.is_over = True
                writer.join()
                self.acknowledged += writer.acknowledged

    def live(self) -> None:
        time.sleep(self.chance.uniform(LEAST_LIFE_SECONDS, MOST_LIFE_SECONDS))

    def check_end(self, server: Server, what: str, status: int = 0) -> None:
        """Whether it ends as one that was told to stop. It begins a snapshot then, of which it tells where that is whole first."""
        end = server.end(END_SECONDS)
        is_kept = end is not None and [line.split()[0] for line in end.printed] == ["kept", "audit"]
        is_kept = is_kept and all(line.startswith("snapshot ") for line in end.told)
        self.found.hold(is_kept and end.status == status and end.printed[-1] == "audit ok", f"{what}: {end}")
        left = sorted(path.name for path in self.folder.iterdir() if not FILES.fullmatch(path.name))
        self.found.hold(not left, f"{what}: the folder holds {left}")

    def check_start(self, what: str, folder: Path | None = None, wanted: Sequence[str] | None = None) -> None:
        """Whether the next start has each key that was acknowledged, and ends in order."""
        wanted = self.acknowledged if wanted is None else wanted
        with Server.keep(self.program, folder or self.folder) as server:
            lost = lost_of(server, wanted)
            self.found.hold(not lost, f"{what}: {len(lost)} of {len(wanted)} acknowledged writes are lost: {lost[:3]}")
            server.stop_in_order()


def lost_of(server: Server, keys: Sequence[str]) -> list[str]:
    """The keys that don't have their name as their value."""
    lost = []
    with server.client() as client:
        for first in range(0, len(keys), READS_TOGETHER):
            asked = keys[first : first + READS_TOGETHER]
            answers = client.ask_together([request("GET", f"/buckets/b/keys/{key}") for key in asked])
            lost += [key for key, answer in zip(asked, answers) if (answer.status, answer.body) != (200, key.encode())]
    return lost


def namespace() -> list[str] | None:
    """The words that begin a program as the first process of a namespace, None where that isn't permitted."""
    words = list(IN_A_NAMESPACE) + ([] if os.geteuid() == 0 else list(AS_A_USER))
    if shutil.which(words[0]) is None:
        return None
    ran = subprocess.run([*words, "true"], stdin=subprocess.DEVNULL, capture_output=True)
    return None if ran.returncode else words


def try_ends(life: Life) -> int:
    """Ends the service in each way while clients write. Gives in how many."""
    tries: list[tuple[str, Sequence[str], Way]] = [(what, (), way) for what, way in WAYS.items()]
    words = namespace()
    if words is None:
        life.found.say(f"{AS_FIRST} is left out: no namespace is permitted")
    else:
        tries.append((AS_FIRST, words, lambda service: os.kill(service.child(), signal.SIGTERM)))
    for what, before, way in tries:
        with life.served(before) as service:
            with life.written(service):
                life.live()
                way(service)
                life.check_end(service, what)
        life.check_start(what)
    return len(tries)


def try_second(life: Life) -> None:
    """Beside a client that takes nothing the first signal waits, and the second doesn't."""
    with life.served() as service:
        client = service.client()
        client.must(204, "PUT", "/buckets/b/keys/big", bytes(BIG_BYTES))
        client.send_without_waiting(request("GET", "/buckets/b/keys/big") * BIG_READS)
        time.sleep(0.5)
        service.signal(signal.SIGTERM)
        time.sleep(1)
        life.found.hold(service.is_running, "a client that takes nothing is waited for")
        service.signal(signal.SIGTERM)
        life.check_end(service, "a second SIGTERM")


def snapshot_by_signal(life: Life, service: Service) -> None:
    """Asks for a snapshot by a signal, and waits until it is told."""
    count = len(service.told)
    service.signal(signal.SIGHUP)
    line = service.told.at(count, END_SECONDS)
    life.found.hold(kept.is_whole_snapshot(line), f"SIGHUP: {line}")


def try_snapshot(life: Life) -> None:
    """What was acknowledged before a snapshot stays where all is killed."""
    with life.served() as service:
        with life.written(service) as writers:
            life.live()
            before = [key for writer in writers for key in writer.acknowledged]
            snapshot_by_signal(life, service)
            service.kill()
    life.acknowledged = [key for key in life.acknowledged if key in set(before) or not key.startswith(f"w{life.starts}-")]
    life.check_start("a kill after SIGHUP")


def try_orphan(life: Life) -> None:
    """Where the wrapper alone is killed, a line to the program's standard input stops it."""
    with life.served() as service:
        program = service.child()
        with life.written(service):
            life.live()
            service.signal(signal.SIGKILL)
            service.process.wait()
            Path(f"/proc/{program}/fd/0").write_text("stop\n", encoding="ascii")
            life.check_end(service, "without its wrapper", -signal.SIGKILL)
    life.check_start("without its wrapper")


def try_hurried(life: Life, starts: int) -> None:
    """A signal at any moment of a start ends it, be it before the program runs."""
    statuses = {0, -signal.SIGTERM, 128 + signal.SIGTERM}
    for _ in range(starts):
        words = [WRAPPER, life.folder, AT_A_PORT_OF_THE_SYSTEM, str(WORKERS)]
        environment = {**os.environ, "DVVSTORE": str(life.program)}
        how: dict[str, Any] = {"stdin": subprocess.DEVNULL, "stdout": subprocess.DEVNULL, "env": environment, "preexec_fn": as_a_leader}
        with subprocess.Popen(words, **how) as process:
            time.sleep(life.chance.uniform(0, MOST_HURRY_SECONDS))
            os.killpg(process.pid, signal.SIGTERM)
            try:
                status = process.wait(END_SECONDS)
            except subprocess.TimeoutExpired:
                status = None
            is_left = runs_in_group(process.pid)
            with contextlib.suppress(ProcessLookupError):
                os.killpg(process.pid, signal.SIGKILL)
        life.found.hold(status in statuses and not is_left, f"SIGTERM at a start: {status}, and a program runs on: {is_left}")
    for left in life.folder.glob("control.*"):
        shutil.rmtree(left)
    life.check_start("signals at starts")


def try_words(life: Life) -> None:
    """Wrong words, and what the program refuses."""
    tries: dict[tuple[str, ...], tuple[int, str]] = {
        (): (2, "usage: dvvstore-service FOLDER ADDR WORKERS\n"),
        (str(life.folder), AT_A_PORT_OF_THE_SYSTEM, "2", "2"): (2, "usage: dvvstore-service FOLDER ADDR WORKERS\n"),
        (f"{life.folder}-missing", AT_A_PORT_OF_THE_SYSTEM, "2"): (1, f"dvvstore-service: no folder: {life.folder}-missing\n"),
        (str(life.folder), AT_A_PORT_OF_THE_SYSTEM, "17"): (2, "usage\n"),
        (str(life.folder), "nowhere", "2"): (2, "unreadable\n"),
    }
    for words, (status, told) in tries.items():
        environment = {**os.environ, "DVVSTORE": str(life.program)}
        how: dict[str, Any] = {"stdin": subprocess.DEVNULL, "capture_output": True, "text": True, "env": environment}
        ran = subprocess.run([WRAPPER, *words], timeout=END_SECONDS, **how)
        life.found.hold(ran.returncode == status and ran.stderr.endswith(told), f"words {words}: {ran}")


# Copies


def page(word: str, room: Path, folder: Path) -> subprocess.CompletedProcess[str]:
    """Runs the line of the page that has this word, in a room where copy.tar lies, with this folder."""
    return run_line(line_of_page(PAGE, word), room, FOLDER=folder)


def snapshots_until(service: Service, is_over: threading.Event) -> None:
    while not is_over.wait(0.01):
        service.signal(signal.SIGHUP)


def try_copies(life: Life, copies: int) -> None:
    """Copies the folder beside writers and snapshots, and starts each copy."""
    room = life.folder.parent
    with life.served() as service:
        with life.written(service) as writers:
            for number in range(copies):
                life.live()
                before = life.acknowledged + [key for writer in writers for key in writer.acknowledged]
                snapshot_by_signal(life, service)
                is_over = threading.Event()
                asking = threading.Thread(target=snapshots_until, args=(service, is_over))
                asking.start()
                time.sleep(life.chance.uniform(0, 0.1))
                ran = page(MAKES_A_COPY, room, life.folder)
                is_over.set()
                asking.join()
                life.found.hold(ran.returncode in TAKEN, f"copy {number}: {ran}")
                put_back = room / f"put-back-{number}"
                ran = page(PUTS_IT_BACK, room, put_back)
                life.found.hold(ran.returncode == 0, f"copy {number}: {ran}")
                life.check_start(f"copy {number}", put_back, before)
            service.signal(signal.SIGTERM)
            end = service.end(END_SECONDS)
            life.found.hold(end is not None and end.is_in_order, f"beside copies: {end}")
    life.check_start("behind copies")


def try_put_back(life: Life) -> None:
    """A copy that is put back by the lines of the page gives no tag again, and takes no context of what it hasn't seen."""
    room, put_back, key = life.folder.parent, life.folder.parent / "put-back", "/buckets/put/keys/back"
    page(MAKES_A_COPY, room, life.folder)
    with life.served() as service, service.client() as client:
        lost = client.must(204, "PUT", key, b"lost")
        context = client.must(200, "GET", key).context
        service.signal(signal.SIGTERM)
        client.close()
        life.check_end(service, "what is lost")
    for word in (PUTS_IT_BACK, RAISES_THE_NUMBER):
        ran = page(word, room, put_back)
        life.found.hold(ran.returncode == 0, f"{word}: {ran}")
    with Server.keep(life.program, put_back) as server:
        with server.client() as client:
            found = lost_of(server, life.acknowledged)
            life.found.hold(not found, f"put back: {len(found)} writes are lost")
            kept_now = client.must(204, "PUT", key, b"kept")
            life.found.hold(kept_now.tag != lost.tag, f"put back: the tag {lost.tag} comes twice")
            answer = client.ask("PUT", key, b"stale", context)
            life.found.hold((answer.status, answer.body.strip()) == (412, b"P1"), f"put back: a lost context: {answer}")
            life.found.hold(client.must(200, "GET", key).body == b"kept", "put back: a write is lost")
        server.stop_in_order()


# What else the page has


def try_numbers(life: Life) -> None:
    """The page's lines that tell a number."""
    with life.served() as service:
        with service.client() as client:
            client.must(204, "PUT", "/buckets/b/keys/watched", b"x")
        snapshot_by_signal(life, service)
        for word, told in NUMBERS.items():
            ran = run_line(line_of_page(PAGE, word), life.folder.parent, **{"FOLDER": life.folder, STORES_PORT: service.port})
            life.found.hold(ran.returncode == 0 and re.fullmatch(told, ran.stdout), f"{word}: {ran}")
        service.signal(signal.SIGTERM)
        end = service.end(END_SECONDS)
        life.found.hold(end is not None and end.is_in_order, f"beside numbers: {end}")


def mode_of(path: Path) -> int:
    return stat.S_IMODE(path.stat().st_mode)


def try_modes(life: Life) -> None:
    """Whose the folder is that the page's line makes, and the files that the service makes in it."""
    folder = life.folder.parent / "own"
    ran = page(MAKES_A_FOLDER, life.folder.parent, folder)
    try_own_modes(life)
    with Service(life.program, folder) as service:
        with service.client() as client:
            client.must(204, "PUT", "/buckets/b/keys/own", b"x")
        snapshot_by_signal(life, service)
        service.signal(signal.SIGTERM)
        service.end(END_SECONDS)
    modes = {path.name: oct(mode_of(path)) for path in folder.iterdir() if mode_of(path) != OWNERS_FILE}
    life.found.hold(ran.returncode == 0 and mode_of(folder) == OWNERS_FOLDER and not modes, f"it is its owner's alone: {ran} {modes}")


def try_own_modes(life: Life) -> None:
    """Whose the folder is that the program makes, and its files, whatever others may have by the mask of its process."""
    folder = life.folder.parent / "around" / "made"
    with Server.keep(life.program, folder, before=lambda: os.umask(0)) as server:
        kept.put(server, "own", b"x")
        server.snapshot()
        modes = {path.name: oct(mode_of(path)) for path in folder.iterdir() if mode_of(path) != OWNERS_FILE}
        server.stop_in_order()
    behind = {path.name: oct(mode_of(path)) for path in folder.iterdir() if mode_of(path) != OWNERS_FILE}
    life.found.hold(mode_of(folder) == OWNERS_FOLDER and not modes and not behind, f"what the program makes is its owner's alone: {modes} {behind}")


def try_unit(found: Findings, room: Path) -> bool:
    """Whether the unit could be tried."""
    verifier = shutil.which("systemd-analyze")
    if verifier is None:
        found.say("the unit is left out: no systemd-analyze")
        return False
    text = UNIT.read_text(encoding="utf-8")
    found.hold(INSTALLED in text, f"the unit runs {INSTALLED}")
    copy = room / UNIT.name
    copy.write_text(text.replace(INSTALLED, str(WRAPPER)), encoding="utf-8")
    ran = subprocess.run([verifier, "verify", "--man=no", copy], stdin=subprocess.DEVNULL, capture_output=True, text=True)
    found.hold(ran.returncode == 0 and not ran.stderr, f"the unit: {ran}")
    return True


def run(program: Path, seed: int, size: Size) -> Result:
    found, chance = Findings(), random.Random(seed)
    with kept.folders(settings=kept.NO_SNAPSHOTS_BY_ITSELF) as folder:
        life = Life(found, program, folder, chance)
        try_words(life)
        ends = try_ends(life)
        try_second(life)
        try_snapshot(life)
        try_orphan(life)
        try_hurried(life, size.hurried_starts)
        try_copies(life, size.copies)
        try_put_back(life)
        try_numbers(life)
        try_modes(life)
        unit = "the unit" if try_unit(found, folder.parent) else "no unit"
    return found.result(f"{ends} ends, {size.copies} copies, {len(life.acknowledged)} writes, {unit}")
