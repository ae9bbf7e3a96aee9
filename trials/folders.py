"""Folders of a kept store that can't be had or written, and settings.

A start is refused whose folder is a file, and one that can't write its number; the folder stays as it is. Where what is held can't
be written at a stop, that has to be told, status 1, and the next start has what the last whole files hold. `settings` that are no
line of theirs are refused; snapshots of a number of seconds come by themselves, and none with 0. Of a store that nothing keeps no
snapshot can be asked for. A start at an address that another server has is told so, and takes no number.

A folder is moved away while its store serves, and another store begins in its place: what the first can't keep any more it has to
tell, at a snapshot and at its stop, and neither folder is touched. The number of a start is taken away while it serves: it is there
again once the server has stopped.
"""
from __future__ import annotations

import random
import resource
import signal
import subprocess
from pathlib import Path

import kept
from server import HOST, End, Server
from trial import Findings, Result, Whole

NAME = "folders"
PROMISES = "A folder that can't be had or written is told in a line, and keeps what it held."
QUICK = True
FULL = SHORT = Whole()

WRONG_SNAPSHOTS = ("snapshot", "snapshot \n", "snapshot -1\n", "snapshot 007\n", "snapshot 4294967296\n", "snapshot 1\n\n", "snapshot 1")
WRONG_NUMBERS = ("number\n", "number -1\n", "number 16777216\n", "number 1\nnumber 2\n", "snapshot 1\nnumber 1\nsnapshot 1\n", "number 1 ")
WRONG_SETTINGS = ("", *WRONG_SNAPSHOTS, *WRONG_NUMBERS)
BY_THEMSELVES = {"snapshot 1\n": True, "snapshot 0\n": False}
WAIT_SECONDS = 3.0
FEW_BYTES = 200
STARTS_IN_VAIN = 4
END_SECONDS = 60


def allow_files_of(most_bytes: int) -> None:
    """No file may have more bytes: further writes fail."""
    signal.signal(signal.SIGXFSZ, signal.SIG_IGN)
    resource.setrlimit(resource.RLIMIT_FSIZE, (most_bytes, most_bytes))


def try_refusals(found: Findings, program: Path, folder: Path) -> None:
    whole = kept.contents(folder)
    no_folder = kept.refusal(program, folder / "incarnation")
    found.hold(no_folder == kept.Refusal(1, "refused folder: refused by the system\n"), f"a file in place of a folder: {no_folder}")
    no_number = kept.refusal(program, folder, lambda: allow_files_of(0))
    found.hold(no_number == kept.Refusal(1, "refused incarnation: refused by the system\n"), f"no number can be written: {no_number}")
    left = {name: data for name, data in kept.contents(folder).items() if not name.endswith(".part")}
    found.hold(left == whole, "no number can be written: the folder was changed")


def try_unwritten_stop(found: Findings, program: Path, folder: Path) -> None:
    with Server.keep(program, folder, before=lambda: allow_files_of(FEW_BYTES)) as server:
        status = kept.put(server, "full", b"x")
        end = server.stop()
        is_told = end is not None and end.status == 1 and len(end.printed) == 2 and end.printed[0].startswith("not kept ")
        found.hold(is_told and end.printed[1] == "audit ok", f"a stop that can't write: {end}")
    with Server.keep(program, folder) as again:
        # What was acknowledged is in the log, which is short enough.
        is_there = status == 204 and server.loaded is not None and again.loaded == server.loaded + 1
        found.hold(is_there, f"after a stop that couldn't write: {again.loaded} records behind {server.loaded} and a write")
        again.stop_in_order()


def try_settings(found: Findings, program: Path, folder: Path) -> None:
    settings = folder / kept.SETTINGS
    for text in WRONG_SETTINGS:
        settings.write_text(text, encoding="ascii")
        whole = kept.contents(folder)
        refusal = kept.refusal(program, folder)
        found.hold(refusal.names(kept.SETTINGS) and kept.contents(folder) == whole, f"settings {text!r}: {refusal}")
    for text, comes in BY_THEMSELVES.items():
        settings.write_text(text, encoding="ascii")
        with Server.keep(program, folder) as server:
            kept.put(server, "set", b"x")  # none is made of a store to which nothing was written
            line = server.told.at(0, WAIT_SECONDS)
            found.hold(kept.is_whole_snapshot(line) == comes, f"settings {text!r}: {line}")
            server.stop_in_order()
    settings.unlink()


def try_served(found: Findings, program: Path) -> None:
    with Server.serve(program) as server:
        server.say("snapshot")
        end = server.stop(END_SECONDS)
        found.hold(end == End(0, ["audit ok"], ["unknown line"]), f"a snapshot of what isn't kept: {end}")


def try_used_address(found: Findings, program: Path, folder: Path) -> None:
    """Starts at an address that another server has."""
    whole = kept.contents(folder)
    with Server.serve(program) as other:
        address = f"{HOST}:{other.port}"
        for _ in range(STARTS_IN_VAIN):
            how = {"stdin": subprocess.DEVNULL, "capture_output": True, "text": True, "timeout": END_SECONDS}
            start = subprocess.run([program, "keep", folder, address, "1"], **how)
            told = start.stderr.splitlines()
            is_told = len(told) == 2 and told[0].startswith(f"{address}: ") and told[1] == "unreadable"
            found.hold((start.returncode, start.stdout) == (2, "") and is_told, f"an address that is in use: {start}")
        other.stop_in_order()
    found.hold(kept.contents(folder) == whole, "an address that is in use: the folder was changed")


def but_logs(folder: Path) -> dict[str, bytes]:
    """The bytes of each file but those of logs: one that is open is written to wherever its folder is moved."""
    return {name: data for name, data in kept.contents(folder).items() if not name.startswith("log-")}


def try_moved(found: Findings, program: Path, folder: Path) -> None:
    """A folder that is moved away while it is served, and another that stands in its place then."""
    with kept.copied(folder) as served:
        moved = served.with_name("moved")
        with Server.keep(program, served) as server:
            kept.put(server, "first", b"x")
            served.rename(moved)
            own = but_logs(moved)
            found.hold(is_told_moved(server.snapshot()), "a snapshot where no folder is told that nothing is kept")
            with Server.keep(program, served) as other:
                kept.put(other, "second", b"y")
                found.hold(kept.is_whole_snapshot(other.snapshot()), "the second store is kept in the place of the first")
                theirs = kept.contents(served)
                found.hold(is_told_moved(server.snapshot()), "a snapshot where another folder is told that nothing is kept")
                end = server.stop(END_SECONDS)
                is_told = end is not None and end.status == 1 and is_told_moved(end.printed[0]) and end.printed[1:] == ["audit ok"]
                found.hold(is_told, f"a stop where another folder is: {end}")
                found.hold(kept.contents(served) == theirs, "the folder that stands in the place of the first was changed")
                found.hold(but_logs(moved) == own, "the folder that was moved away was changed")
                other.stop_in_order()


def is_told_moved(line: str | None) -> bool:
    return line is not None and line.startswith("not kept ") and line.endswith(": the folder was moved or removed")


def try_lacking_number(found: Findings, program: Path, folder: Path) -> None:
    """A number that is taken away while its store serves."""
    with kept.copied(folder) as copy:
        with Server.keep(program, copy) as server:
            number = (copy / kept.NUMBER).read_bytes()
            for what in ("a snapshot", "a stop"):
                (copy / kept.NUMBER).unlink()
                server.snapshot() if what == "a snapshot" else server.stop_in_order()
                found.hold(kept.contents(copy).get(kept.NUMBER) == number, f"the number is there again after {what}")
        found.hold(kept.loaded_from(program, copy) is not None, "the next start has its number")


def run(program: Path, seed: int, size: Whole) -> Result:
    found = Findings()
    with kept.folders() as folder:
        kept.fill(program, folder, random.Random(seed), starts=1)
        try_refusals(found, program, folder)
        try_settings(found, program, folder)
        try_used_address(found, program, folder)
        try_moved(found, program, folder)
        try_lacking_number(found, program, folder)
        try_unwritten_stop(found, program, folder)
    try_served(found, program)
    refused = f"{len(WRONG_SETTINGS)} settings refused, {len(BY_THEMSELVES)} taken"
    return found.result(f"{refused}, {STARTS_IN_VAIN} starts in vain, 2 folders changed")
