"""Builds the image of service/Dockerfile and runs it, by the lines of docs/OPERATIONS.md.

An archive of a release is unpacked, and the page's lines are run there by `docker`, or by `podman` where no engine of docker's answers;
only names, the port and the number of descriptors are the trial's. A write has to be answered, the signal of the page to bring a
snapshot, a stop to end with `kept N`, `audit ok` and status 0, and the next start to have what was written. Another start has the root
folder that can't be written, and no capability, as compose.yaml has it. That file itself is read by `docker compose`, where there is
one, and not run.

The base image has to be at hand, or its registry. The variable ENGINE names another command in the place of `docker`, and RUN_FLAGS
has further words for its `run`, where a machine permits less than that asks for by itself.
"""
from __future__ import annotations

import os
import re
import resource
import shlex
import shutil
import subprocess
import tempfile
import time
import urllib.error
import urllib.request
from collections.abc import Sequence
from pathlib import Path

import release
from server import HOST, free_port
from trial import TOP, Findings, Result, Skipped, Whole, line_of_page

NAME = "container"
PROMISES = "The image that the page's lines build serves as PID 1, keeps by a signal and stops in order."
QUICK = False
FULL = SHORT = Whole()

PAGE = TOP / "docs" / "OPERATIONS.md"
COMPOSE = TOP / "service" / "compose.yaml"
BASE = re.compile(r"^FROM (\S+)", re.M)
IMAGE, VOLUME, PUBLISHED, FILES = "dvvstore", "dvvstore:/var/lib/dvvstore", "127.0.0.1:8098:8098", "nofile=65536"
GUARDED = ("--read-only", "--cap-drop", "ALL", "--security-opt", "no-new-privileges")
KEY = "/buckets/b/keys/k"
BUILD_SECONDS, ANSWER_SECONDS = 600, 60


class Engine:
    """A command as docker's, and the names that this trial gives."""

    def __init__(self, words: Sequence[str], name: str):
        self.words, self.name, self.port = list(words), name, free_port()
        self.flags = shlex.split(os.environ.get("RUN_FLAGS", ""))

    def run(self, *words: str, folder: Path | None = None) -> subprocess.CompletedProcess[str]:
        how = {"stdin": subprocess.DEVNULL, "capture_output": True, "text": True, "timeout": BUILD_SECONDS}
        return subprocess.run([*self.words, *words], cwd=folder, **how)

    def page(self, word: str, folder: Path, guarded: Sequence[str] = ()) -> subprocess.CompletedProcess[str]:
        """Runs the line of the page that has this word."""
        _, command, *words = shlex.split(line_of_page(PAGE, word))
        files = min(65_536, resource.getrlimit(resource.RLIMIT_NOFILE)[1])
        ours = {
            IMAGE: self.name,
            VOLUME: VOLUME.replace(IMAGE, self.name, 1),
            PUBLISHED: f"{HOST}:{self.port}:8098",
            FILES: f"nofile={files}",
        }
        added = [*self.flags, *guarded] if command == "run" else []
        return self.run(command, *added, *(ours.get(one, one) for one in words), folder=folder)

    def remove(self) -> None:
        for words in (["rm", "-f", self.name], ["volume", "rm", "-f", self.name], ["rmi", self.name]):
            self.run(*words)


def engine_at_hand(name: str) -> Engine:
    """The first command that answers."""
    named = os.environ.get("ENGINE")
    for words in [shlex.split(named)] if named else [["docker"], ["podman"]]:
        if shutil.which(words[0]) and (engine := Engine(words, name)).run("info").returncode == 0:
            return engine
    raise Skipped(f"{named or 'docker and podman'}: none that answers")


def want_base(engine: Engine) -> None:
    base = BASE.search((TOP / "service" / "Dockerfile").read_text(encoding="utf-8"))[1]
    if engine.run("image", "inspect", base).returncode and engine.run("pull", base).returncode:
        raise Skipped(f"no image {base}")


def asked(engine: Engine, method: str, path: str, body: bytes | None = None) -> tuple[int, bytes]:
    """An answer, once there is one."""
    until = time.monotonic() + ANSWER_SECONDS
    request = urllib.request.Request(f"http://{HOST}:{engine.port}{path}", body, method=method)
    while True:
        try:
            with urllib.request.urlopen(request, timeout=ANSWER_SECONDS) as answer:
                return answer.status, answer.read()
        except urllib.error.HTTPError as answer:
            return answer.code, answer.read()
        except OSError:
            if time.monotonic() > until:
                raise
            time.sleep(0.1)


def logged(engine: Engine) -> str:
    ran = engine.run("logs", engine.name)
    return ran.stdout + ran.stderr


def is_told(engine: Engine, line: str) -> bool:
    """Whether a line that begins so comes within the time."""
    until = time.monotonic() + ANSWER_SECONDS
    while not (comes := re.search(f"^{line}", logged(engine), re.M)) and time.monotonic() < until:
        time.sleep(0.1)
    return bool(comes)


def try_stop(found: Findings, engine: Engine, folder: Path, what: str) -> None:
    """Whether the page's line stops it in order."""
    ran = engine.page("docker stop", folder)
    found.hold(ran.returncode == 0, f"{what}: {ran}")
    told = logged(engine)
    found.hold(re.search(r"^kept 1\naudit ok$", told, re.M), f"{what}: {told}")
    status = engine.run("inspect", "--format", "{{.State.ExitCode}}", engine.name).stdout.strip()
    found.hold(status == "0", f"{what}: status {status}")


def try_image(found: Findings, engine: Engine, folder: Path) -> None:
    ran = engine.page("docker build", folder)
    found.hold(ran.returncode == 0, f"the image: {ran.stderr[-600:]}")
    ran = engine.page("docker run", folder)
    found.hold(ran.returncode == 0, f"a start: {ran}")
    found.hold(asked(engine, "PUT", KEY, b"v")[0] == 204, "a write is answered")
    ran = engine.page("docker kill", folder)
    found.hold(ran.returncode == 0 and is_told(engine, "snapshot 1 "), f"a snapshot by a signal: {ran}")
    try_stop(found, engine, folder, "a stop")
    engine.run("rm", engine.name)
    ran = engine.page("docker run", folder, GUARDED)
    found.hold(ran.returncode == 0, f"a start that may do little: {ran}")
    found.hold(asked(engine, "GET", KEY) == (200, b"v"), "what was written is there")
    try_stop(found, engine, folder, "a stop of one that may do little")


def try_compose(found: Findings) -> str:
    """Whether the file for compose is one, where there is a command that says so."""
    for words in (["docker", "compose"], ["docker-compose"]):
        if shutil.which(words[0]) and subprocess.run([*words, "version"], capture_output=True).returncode == 0:
            ran = subprocess.run([*words, "-f", COMPOSE, "config", "--quiet"], stdin=subprocess.DEVNULL, capture_output=True, text=True)
            found.hold(ran.returncode == 0, f"{COMPOSE.name}: {ran}")
            return f"{COMPOSE.name} read"
    found.say(f"{COMPOSE.name} is left out: no compose")
    return "no compose"


def run(program: Path, seed: int, size: Whole) -> Result:
    found, engine = Findings(), engine_at_hand(f"trial-{os.getpid()}")
    want_base(engine)
    with tempfile.TemporaryDirectory(prefix="trial-") as name:
        room = Path(name)
        archive = release.packed(found, program, room / "packed")
        release.unpack(archive, room)
        try:
            try_image(found, engine, room / archive.name.removesuffix(".tar.gz"))
        finally:
            engine.remove()
    return found.result(f"built and run by {engine.words[-1].rpartition('/')[2]}; {try_compose(found)}")
