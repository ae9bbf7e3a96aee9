"""Packs a release, installs it where there is nothing but a few tools, and goes through the first steps of its README.

release/make.sh packs the program that is tried, twice: both archives have to be the same to the byte, to have the sum beside them, and
the repository's files and no others. Then it is unpacked by README.md's lines in an empty folder, with a PATH on which the tools of
those lines are and nothing else, and the server begins by the last of them. Each session of that README has to print there what stands
behind it, and the server to stop in order. What the archive says of itself has to be what the program says, and that nothing was proved.

The way on which the crates are built is tried in a copy of the repository with an `rt` that proves nothing and tells what it was asked:
each crate has to come behind all those that it stands on, by no more jobs than there are processors, and the program last, by one. Where
that `rt` refuses a crate no archive may be made.
"""
from __future__ import annotations

import hashlib
import os
import shutil
import subprocess
import tarfile
import tempfile
from collections.abc import Mapping
from pathlib import Path

from server import AT_A_PORT_OF_THE_SYSTEM, Server
from sessions import Shell, try_sessions
from trial import NOT_COPIED, TOP, Findings, Result, Skipped, Whole, line_of_page, run_line, tool

NAME = "release"
PROMISES = "A release's archive is packed, installed by README's lines, and does what its README says."
QUICK = True
FULL = SHORT = Whole()

MAKE = Path("release", "make.sh")
LARGE = "dvvstore"
PAGE = "README.md"
INSTALLS = ("sha256sum -c", "tar -xzf")
SERVES, ADDRESS = "./dvvstore serve", "127.0.0.1:8098"
# What the lines of README.md need, those that install and those of its sessions, and what the shells need beside them.
TOOLS = ("bash", "sh", "curl", "gzip", "sed", "sha256sum", "tar", "tr")
LEFT_OUT = {"trials", "wrong-bodies", "gate", ".git", "crates.txt"}
PACK_SECONDS = 120

# An `rt` that proves nothing: it tells what it was asked for, refuses the crate that it is told to, and has the program at hand.
STAND_IN = """#!/bin/sh
crate=${{PWD##*/}}
[ "$1" != version ] || exec echo "rattle-kit-0 of a trial"
echo "$crate $*" >>"{told}"
[ "$crate" != "$REFUSED" ] || {{ echo "$crate is refused"; exit 1; }}
[ "$1" != run ] || {{ mkdir -p out && cp "{program}" out/{large} && out/{large} version; }}
"""


def made(folder: Path, *words: object, **environment: str) -> subprocess.CompletedProcess[str]:
    """Has a repository's release made."""
    command = [folder / MAKE, *map(str, words)]
    return subprocess.run(command, capture_output=True, text=True, timeout=PACK_SECONDS, env={**os.environ, **environment})


def archive_in(folder: Path) -> Path | None:
    """The one archive of a folder."""
    archives = list(folder.glob("*.tar.gz"))
    return archives[0] if len(archives) == 1 else None


def unpack(archive: Path, folder: Path) -> None:
    subprocess.run([tool("tar"), "-C", folder, "-xzf", archive], check=True)


def told_by(program: Path) -> list[str]:
    return subprocess.run([program, "version"], capture_output=True, text=True, timeout=PACK_SECONDS).stdout.splitlines()


# What is packed


def packed(found: Findings, program: Path, folder: Path) -> Path:
    """The archive of the program that is tried."""
    ran = made(TOP, "--pack", program, folder)
    archive = archive_in(folder)
    if ran.returncode or archive is None:
        raise ValueError(f"nothing is packed: {ran}")
    found.hold("not proved" in ran.stdout, f"that nothing was proved is told: {ran.stdout}")
    found.hold(hashlib.sha256(archive.read_bytes()).hexdigest() in ran.stdout, f"its sum is told: {ran.stdout}")
    return archive


def try_again(found: Findings, program: Path, archive: Path, folder: Path) -> None:
    """Whether the same program gives the same archive."""
    made(TOP, "--pack", program, folder)
    again = archive_in(folder)
    found.hold(again is not None and again.read_bytes() == archive.read_bytes(), "the same files give the same archive")


def try_files(found: Findings, program: Path, archive: Path) -> int:
    """Whether the archive has what it has to, for everybody to read. Gives how many files it has."""
    version = told_by(program)[0].removeprefix(f"{LARGE} ")
    top = f"{LARGE}-{version}-linux-x86_64"
    found.hold(archive.name == f"{top}.tar.gz", f"the archive is named after {version}: {archive.name}")
    with tarfile.open(archive) as opened:
        members = opened.getmembers()
    found.hold(all(member.name == top or member.name.startswith(f"{top}/") for member in members), "all of it lies in one folder")
    names = {member.name.removeprefix(f"{top}/") for member in members}
    wanted = {LARGE, f"crates/{LARGE}/out/{LARGE}", "BUILT", "README.md", "CHANGELOG.md", "docs/OPERATIONS.md", "service/dvvstore-service"}
    found.hold(wanted <= names, f"it lacks {sorted(wanted - names)}")
    found.hold(not any(name.split("/")[0] in LEFT_OUT or "__pycache__" in name for name in names), f"it has {sorted(names)}")
    for member in members:
        is_program = member.isdir() or member.mode & 0o100
        found.hold(member.mode == (0o755 if is_program else 0o644) and member.uid == 0, f"{member.name}: {member.mode:o}, of {member.uid}")
    return sum(not member.isdir() for member in members)


# The first steps


def few_tools(room: Path) -> Path:
    """A folder with the tools of TOOLS and nothing else."""
    folder = room / "bin"
    folder.mkdir()
    for name in TOOLS:
        (folder / name).symlink_to(tool(name))
    return folder


def installed(found: Findings, archive: Path, room: Path, environment: Mapping[str, str]) -> Path:
    """Unpacks an archive in an empty folder by the lines of README.md, and gives the folder that is there then."""
    for path in (archive, archive.with_name(f"{archive.name}.sha256")):
        shutil.copy(path, room)
    for word in INSTALLS:
        version = archive.name.split("-")[1]
        ran = run_line(line_of_page(TOP / PAGE, word), room, environment=environment, VERSION=version)
        found.hold(ran.returncode == 0, f"{word}: {ran}")
    return room / archive.name.removesuffix(".tar.gz")


def serving(line: str, folder: Path, environment: Mapping[str, str]) -> Server:
    """The server that a line begins, at a port of the system."""
    program, *words = line.replace(ADDRESS, AT_A_PORT_OF_THE_SYSTEM).split()
    return Server(folder / program, words, environment=environment)


def try_first_steps(found: Findings, program: Path, archive: Path, room: Path) -> int:
    """Installs an archive and runs the sessions of its README.md. Gives how many commands were run."""
    environment = {"PATH": str(few_tools(room)), "HOME": str(room), "LC_ALL": "C.UTF-8"}
    empty = room / "empty"
    empty.mkdir()
    folder = installed(found, archive, empty, environment)
    found.hold((folder / "BUILT").read_text(encoding="utf-8").startswith("\n".join(told_by(program))), "BUILT has the program's own words")
    with serving(line_of_page(folder / PAGE, SERVES), folder, environment) as server:
        shell = Shell(folder, server.port, environment)
        count = try_sessions(found, PAGE, (folder / PAGE).read_text(encoding="utf-8"), shell)
        shell.close()
        server.stop_in_order()
    return count


# How it is built


def needs() -> dict[str, list[str]]:
    """The crates that each crate stands on, by crates.txt."""
    lines = (line.partition(":") for line in (TOP / "crates.txt").read_text(encoding="utf-8").splitlines() if line[:1].isalpha())
    return {head.split()[0]: names.split() for head, _, names in lines}


def copied(room: Path) -> Path:
    """A repository of its own with what a release is made of."""
    copy = room / "copy"
    shutil.copytree(TOP, copy, ignore=NOT_COPIED, symlinks=True)
    git = ["git", "-C", str(copy), "-c", "user.name=trial", "-c", "user.email=trial@localhost", "-c", "commit.gpgsign=false"]
    for words in (["init", "-q"], ["add", "-A"], ["commit", "-q", "-m", "A copy"]):
        subprocess.run([*git, *words], check=True, capture_output=True)
    return copy


def try_builds(found: Findings, program: Path, room: Path) -> int:
    """Whether the crates are built each behind those that it stands on. Gives how many."""
    copy, told, stand_in = copied(room), room / "told", room / "stand-in"
    stand_in.mkdir()
    (stand_in / "rt").write_text(STAND_IN.format(told=told, program=program, large=LARGE), encoding="utf-8")
    (stand_in / "rt").chmod(0o755)
    how = {"PATH": f"{stand_in}:{os.environ['PATH']}", "REFUSED": ""}
    ran = made(copy, room / "built", **how)
    found.hold(ran.returncode == 0 and "\nproved: " in ran.stdout, f"a release is built: {ran}")
    built: list[str] = []
    for line in told.read_text(encoding="utf-8").splitlines():
        crate, command, _, jobs, *_ = line.split()
        lacking = [name for name in needs()[crate] if name in needs() and name not in built]
        found.hold(not lacking, f"{crate} is built before {lacking}")
        found.hold(command == ("run" if crate == LARGE else "lib"), f"asked of {crate}: {line}")
        found.hold(1 <= int(jobs) <= (1 if crate == LARGE else os.cpu_count() or 1), f"jobs of {crate}: {jobs}")
        built.append(crate)
    found.hold(built[-1:] == [LARGE] and len(built) == len(set(built)), f"the program is built last, each once: {built}")
    refused = made(copy, room / "refused", **{**how, "REFUSED": built[len(built) // 2]})
    found.hold(refused.returncode == 1 and "is refused" in refused.stderr, f"a crate that is refused is told: {refused}")
    found.hold(not (room / "refused").exists(), "nothing is packed where a crate is refused")
    return len(built)


def run(program: Path, seed: int, size: Whole) -> Result:
    tool("git")
    if not (TOP / ".git").exists():
        raise Skipped("this is no checkout of git")
    found = Findings()
    with tempfile.TemporaryDirectory(prefix="trial-") as name:
        room = Path(name)
        archive = packed(found, program, room / "packed")
        try_again(found, program, archive, room / "again")
        files = try_files(found, program, archive)
        commands = try_first_steps(found, program, archive, room)
        crates = try_builds(found, program, room)
        size_kib = archive.stat().st_size // 1024
    return found.result(f"{files} files, {size_kib} KiB; {commands} commands; {crates} crates in their order")
