"""What trials have in common besides servers: a result, what was found, the tools that are needed, C programs."""
from __future__ import annotations

import dataclasses
import re
import shutil
import subprocess
from collections.abc import Callable, Iterable, Mapping
from concurrent.futures import ThreadPoolExecutor
from dataclasses import dataclass, field
from pathlib import Path
from typing import Any

TOP = Path(__file__).resolve().parent.parent
ALL = 0  # in the place of a number, where nothing is left out
# What a copy of the repository, in which its documents' command lines are run, has no need of.
NOT_COPIED = shutil.ignore_patterns(".git", "out", "*.rt", "*.antt", "*.edit")
C_SOURCES = Path(__file__).resolve().parent / "c"
FOR_THE_SYSTEM = "/usr/sbin:/sbin"  # which aren't on the PATH of all users
COMPILE = ("-O2", "-pthread")
COMPILE_LIBRARY = ("-O2", "-shared", "-fPIC")


class Skipped(Exception):
    """Why a trial can't be made here."""


@dataclass(frozen=True)
class Result:
    """What came of a trial: whether what it promises holds, a figure in a few words, and lines for who wants to know more."""

    ok: bool
    figure: str
    detail: list[str] = field(default_factory=list)


@dataclass(frozen=True)
class Whole:
    """The size of a trial that is always made whole."""


def with_settings(size: Any, settings: Mapping[str, str]) -> Any:
    """A size of which some numbers are set, as `--set` has them. A row of numbers is written with commas."""
    kinds = {one.name: type(getattr(size, one.name)) for one in dataclasses.fields(size)}
    unknown = [name for name in settings if name not in kinds]
    if unknown:
        raise ValueError(f"nothing is named {unknown[0]}: {', '.join(kinds) or 'nothing is set'}")
    return dataclasses.replace(size, **{name: value_of(kinds[name], text) for name, text in settings.items()})


def value_of(kind: type, text: str) -> Any:
    if kind is bool:
        return {"yes": True, "no": False}[text]
    return tuple(map(int, text.split(","))) if kind is tuple else kind(text)


class Findings:
    """What a trial finds as it goes: lines of what it saw, and of what doesn't hold."""

    # Whether lines are shown as they come.
    are_shown = False

    def __init__(self) -> None:
        self.lines: list[str] = []
        self.is_fine = True

    def say(self, line: str) -> None:
        self.lines.append(line)
        if Findings.are_shown:
            print(f"  {line}", flush=True)

    def fail(self, line: str) -> None:
        self.is_fine = False
        self.say(f"NOT SO: {line}")

    def hold(self, holds: object, what: str) -> bool:
        """Notes what has to hold, where it doesn't."""
        if not holds:
            self.fail(what)
        return bool(holds)

    def result(self, figure: str) -> Result:
        return Result(self.is_fine, figure, self.lines)


def side_by_side(most: int, calls: Iterable[Callable[[], None]]) -> None:
    """Makes all calls, so many at a time. Where one fails, or the run is ended, those that haven't begun are left out."""
    pool = ThreadPoolExecutor(most)
    try:
        for one in [pool.submit(call) for call in calls]:
            one.result()
    finally:
        pool.shutdown(cancel_futures=True)


def tool(name: str) -> str:
    """The path of a tool, without which a trial is skipped."""
    path = shutil.which(name) or shutil.which(name, path=FOR_THE_SYSTEM)
    if path is None:
        raise Skipped(f"no {name}")
    return path


def compiled(source: str, made: Path, *flags: str, before: tuple[str, ...] = COMPILE) -> Path:
    """A C program of `c/`, or a library, made where it is said."""
    subprocess.run([tool("cc"), *before, "-o", made, C_SOURCES / source, *flags], check=True)
    return made


def library(source: str, made: Path) -> Path:
    """A library of `c/` that is loaded before the system's."""
    return compiled(source, made, "-ldl", before=COMPILE_LIBRARY)


def lines_of_page(page: Path) -> list[str]:
    """The command lines of a page; one that ends by a backslash goes on in the next."""
    text = page.read_text(encoding="utf-8").replace("\\\n", "")
    return [line.strip() for line in text.splitlines() if line.startswith("    ")]


def line_of_page(page: Path, word: str) -> str:
    """The one command line of a page that has this word."""
    lines = [line for line in lines_of_page(page) if word in line]
    if len(lines) != 1:
        raise ValueError(f"{page.name} has {len(lines)} lines with {word!r}")
    return lines[0]


def run_line(
    line: str, room: Path, given: str = "", environment: Mapping[str, str] | None = None, **named: object
) -> subprocess.CompletedProcess[str]:
    """Runs a command line of a page in a room, with what stands for each name in it, and with this on its standard input."""
    for name, word in named.items():
        line = re.sub(rf"\b{name}\b", str(word), line)
    return subprocess.run(["sh", "-c", line], cwd=room, input=given, capture_output=True, text=True, env=environment)


def words_of(found: object, most: int = 300) -> str:
    """What was found, shortened to what a line holds."""
    text = str(found)
    return text if len(text) <= most else f"{text[:most]}.."
