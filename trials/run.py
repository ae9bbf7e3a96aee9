#!/usr/bin/env python3
"""Tries a program of the store from outside, and prints a table of what came of it.

    trials/run.py --quick PROGRAM       a short form of the quick trials, in three minutes at most: a newcomer's first look
    trials/run.py --all PROGRAM         all trials, some hours
    trials/run.py NAME.. PROGRAM        these; with --quick their short form, and with --set FIELD=VALUE of another size
    trials/run.py --list                their names, what they promise, and their sizes

PROGRAM is the path of `dvvstore`, or the word `unproved`: then it is built from the sources without proofs, which takes two minutes
the first time. Each trial takes the seed of the run, and what it draws by chance is drawn anew from that. A trial that lacks a tool
is skipped, and counts for nothing. The status is 0 where no trial failed, 1 where one did, and 2 where the words are wrong.
"""
from __future__ import annotations

import argparse
import importlib
import random
import signal
import sys
import textwrap
import time
import traceback
from collections.abc import Iterable
from dataclasses import dataclass
from pathlib import Path
from types import ModuleType
from typing import Any

sys.dont_write_bytecode = True  # the folder holds sources alone

import unproved  # noqa: E402
from server import Server  # noqa: E402
from trial import Findings, Result, Skipped, with_settings, words_of  # noqa: E402

# In the order in which they are run.
NAMES = (
    "alone",
    "starts",
    "start_numbers",
    "folds",
    "stop",
    "slow_stop",
    "service",
    "backups",
    "systemd",
    "container",
    "proxies",
    "neighbours",
    "kills",
    "reads",
    "log_tails",
    "log_order",
    "power_cuts",
    "damages",
    "folders",
    "copies",
    "full_device",
    "full_log",
    "failing_calls",
    "failing_logs",
    "refused_snapshots",
    "refused_logs",
    "refused_calls",
    "descriptors",
    "troubles",
    "uploads",
    "clients",
    "strangers",
    "deaf",
    "crowd",
    "rewritten",
    "flat",
    "colliding",
    "snapshots",
    "grow",
    "beside",
    "logs",
    "dpdk",
    "docs",
    "sentences",
    "release",
    "fresh",
    "corpus",
    "library",
    "wrong_bodies",
)

MOST_SEED = 10**6
COLUMNS = {"trial": 20, "what it promises": 60, "figure": 40, "seconds": 9, "ok": 9}


@dataclass(frozen=True)
class Row:
    """A line of the table: a trial, and what came of it, or why it was skipped."""

    trial: ModuleType
    seconds: float
    result: Result | None
    why_skipped: str = ""

    @property
    def has_failed(self) -> bool:
        return self.result is not None and not self.result.ok

    def cells(self) -> list[str]:
        if self.result is None:
            figure, ok = f"skipped: {self.why_skipped}", "skipped"
        else:
            figure, ok = self.result.figure, "yes" if self.result.ok else "NO"
        return [self.trial.NAME, self.trial.PROMISES, figure, f"{self.seconds:.1f}", ok]


def print_line(cells: list[str]) -> None:
    """A line of the table, in which long cells are broken."""
    columns = [textwrap.wrap(cell, width - 2) or [""] for cell, width in zip(cells, COLUMNS.values())]
    for place in range(max(map(len, columns))):
        parts = (column[place] if place < len(column) else "" for column in columns)
        print("".join(part.ljust(width) for part, width in zip(parts, COLUMNS.values())).rstrip(), flush=True)


def tried(trial: ModuleType, program: Path, seed: int, size: Any) -> Row:
    """Runs a trial, and kills the servers that it left."""
    begun = time.monotonic()
    try:
        result, why = trial.run(program, seed, size), ""
    except Skipped as reason:
        result, why = None, str(reason)
    except Exception as error:  # whatever goes wrong, the trial has failed, and the others are run
        found, why = Findings(), ""
        for line in traceback.format_exc().splitlines():
            found.say(line)
        result = Result(False, words_of(f"{type(error).__name__}: {error}"), found.lines)
    finally:
        Server.kill_all()
    return Row(trial, time.monotonic() - begun, result, why)


def modules(names: Iterable[str]) -> list[ModuleType]:
    """The trials with these names, in the order of all."""
    return [importlib.import_module(name) for name in NAMES if name in names]


def trials_of(given: argparse.Namespace) -> list[ModuleType]:
    if given.names:
        return modules(given.names)
    return [trial for trial in modules(NAMES) if trial.QUICK or given.all]


def sizes_of(given: argparse.Namespace) -> dict[str, Any]:
    """The size of each trial that is to be run."""
    settings = dict(word.split("=", 1) for word in given.set)
    return {trial.NAME: with_settings(trial.SHORT if given.quick else trial.FULL, settings) for trial in trials_of(given)}


def words() -> argparse.Namespace:
    parser = argparse.ArgumentParser(description=__doc__, formatter_class=argparse.RawDescriptionHelpFormatter)
    parser.add_argument("--quick", action="store_true", help="the short form")
    parser.add_argument("--all", action="store_true", help="all trials, in full")
    parser.add_argument("--list", action="store_true", help="tell the trials, and run none")
    parser.add_argument("--verbose", action="store_true", help="show what trials see as they go, as is done where they are named")
    parser.add_argument("--set", action="append", default=[], metavar="FIELD=VALUE", help="a number of the size of the trial that is named")
    parser.add_argument("--seed", type=int, help="what chance begins with; drawn where none is said")
    parser.add_argument("words", nargs="*", metavar="[NAME..] PROGRAM", help="names of trials, and the program")
    given = parser.parse_intermixed_args()
    *given.names, given.program = given.words or [None]
    if given.list:
        return given
    unknown = [name for name in given.names if name not in NAMES]
    if unknown:
        parser.error(f"no trial is named {unknown[0]}: --list tells them")
    if given.program is None:
        parser.error("the program is missing: its path, or the word unproved")
    if given.program in NAMES or given.program != "unproved" and not Path(given.program).is_file():
        parser.error(f"no program: {given.program}")
    if not (given.names or given.quick or given.all):
        parser.error("say --quick, --all or the names of trials")
    if given.set and len(given.names) != 1:
        parser.error("--set goes with one trial")
    try:
        given.sizes = sizes_of(given)
    except (KeyError, ValueError) as error:
        parser.error(f"--set: {error}")
    return given


def told_sizes(trial: ModuleType) -> dict[str, str]:
    """The sizes of a trial in words, where it has more than one."""
    if trial.FULL == trial.SHORT:
        return {}
    sizes = {"full": trial.FULL, "short": trial.SHORT}
    return {name: " ".join(f"{field}={value}" for field, value in vars(size).items()) for name, size in sizes.items()}


def program_of(word: str) -> Path:
    if word != "unproved":
        return Path(word).resolve()
    print("the program without proofs is built where none is kept", flush=True)
    return unproved.build()


def main() -> int:
    given = words()
    if given.list:
        for trial in modules(NAMES):
            print(f"{trial.NAME}: {trial.PROMISES}{' Quick.' if trial.QUICK else ''}")
            print("".join(f"    {name}: {words}\n" for name, words in told_sizes(trial).items()), end="")
        return 0
    signal.signal(signal.SIGTERM, lambda number, _: sys.exit(128 + number))
    seed = random.SystemRandom().randrange(MOST_SEED) if given.seed is None else given.seed
    Findings.are_shown = bool(given.names) or given.verbose
    try:
        program = program_of(given.program)
    except Skipped as reason:
        print(f"no program: {reason}", file=sys.stderr)
        return 2
    print(f"seed {seed}: the same again by --seed {seed}\n", flush=True)
    print_line(list(COLUMNS))
    begun, rows = time.monotonic(), []
    for trial in trials_of(given):
        row = tried(trial, program, seed, given.sizes[trial.NAME])
        print_line(row.cells())
        if row.has_failed and not Findings.are_shown:
            print("".join(f"  {line}\n" for line in row.result.detail), end="", flush=True)
        rows.append(row)
    failed, skipped = sum(row.has_failed for row in rows), sum(row.result is None for row in rows)
    print(f"\n{len(rows) - failed - skipped} hold, {failed} failed, {skipped} skipped, in {time.monotonic() - begun:.0f} s; seed {seed}")
    return 1 if failed else 0


if __name__ == "__main__":
    sys.exit(main())
