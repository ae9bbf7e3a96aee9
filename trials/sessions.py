"""Sessions of a document: the command lines in it, run in a shell, and what they print compared with what stands behind them.

A block of code whose lines begin with `$ ` is a session: each such line is run, and the lines up to the next one are what it prints.
Tags and contexts differ from start to start, so each that stands in a document is read as a name for the one that this server gives
in its place. A block without `$ ` is no session.
"""
from __future__ import annotations

import re
import subprocess
from collections.abc import Iterator, Mapping
from dataclasses import dataclass, field
from pathlib import Path

from server import HOST
from trial import Findings, tool

BLOCK = re.compile(r"(?:^    .*\n(?:(?:^ *\n)*(?=^    ))?)+", re.M)
LENGTH = re.compile(r"Content-Length: \d+")
TAG = r"\d{6,10}-\d+"
CONTEXT = r"A[gQw][A-Za-z0-9+/]{10,}={0,2}"
NAMED = re.compile(rf"{CONTEXT}|{TAG}")
PROMPT = "$ "
END_SECONDS = 60


@dataclass
class Step:
    """A command of a session, and what it prints as the document has it."""

    command: str
    written: list[str] = field(default_factory=list)


def steps_of(text: str) -> Iterator[Step]:
    """The commands of all blocks of code that are sessions."""
    for block in BLOCK.findall(text):
        lines = [line[4:] if line.strip() else "" for line in block.rstrip("\n").split("\n")]
        if not lines[0].startswith(PROMPT):
            continue
        step = None
        for line in lines:
            if line.startswith(PROMPT):
                if step is not None:
                    yield step
                step = Step(line.removeprefix(PROMPT))
            else:
                step.written.append(line)
        yield step


class Names:
    """What this server gave for each tag and context of a document."""

    def __init__(self) -> None:
        self.given: dict[str, str] = {}

    def told(self, command: str) -> str:
        """A command of the document, with what this server gave."""
        return NAMED.sub(lambda found: self.given.get(found[0], found[0]), command)

    def match(self, written: str, seen: str) -> bool:
        """Whether a line of the document is the one that was seen; notes what stands for its tags and contexts."""
        parts, names = NAMED.split(written), NAMED.findall(written)
        pattern = re.escape(parts[0])
        for name, part in zip(names, parts[1:]):
            known = self.given.get(name)
            pattern += f"({re.escape(known) if known else NAMED.pattern})" + re.escape(part)
        found = re.fullmatch(pattern, seen)
        if found is None:
            return False
        self.given.update(zip(names, found.groups()))
        return True


class Shell:
    """A shell that is told one command at a time."""

    END = "--that-was-it--"

    def __init__(self, folder: Path, port: int, environment: Mapping[str, str] | None = None):
        pipe = subprocess.PIPE
        how = {"stdin": pipe, "stdout": pipe, "stderr": subprocess.STDOUT, "text": True, "env": environment}
        self.process = subprocess.Popen([tool("bash")], cwd=folder, **how)
        self.run(f"U=http://{HOST}:{port}; ADDR={HOST}:{port}")
        self.run('curl() { command curl -s "$@"; }')

    def run(self, command: str) -> list[str]:
        print(f"{command}\nprintf '\\n{self.END}\\n'", file=self.process.stdin, flush=True)
        lines = []
        for line in self.process.stdout:
            if line.rstrip("\n") == self.END:
                break
            lines.append(line.rstrip("\n").rstrip("\r"))
        return lines

    def close(self) -> None:
        self.process.stdin.close()
        self.process.wait(END_SECONDS)
        self.process.stdout.close()


def trimmed(lines: list[str]) -> list[str]:
    """Lines without the empty ones at their end."""
    return trimmed(lines[:-1]) if lines and not lines[-1] else lines


def without_length(lines: list[str]) -> list[str]:
    """Lines that tell of tags, whose length differs from start to start, without the length of all."""
    return [LENGTH.sub("Content-Length:", line) for line in lines] if re.search(TAG, "".join(lines)) else lines


def difference(names: Names, step: Step, seen: list[str]) -> str:
    """Why what was seen isn't what is written; empty where it is."""
    written, seen = without_length(trimmed(step.written)), without_length(trimmed(seen))
    if len(written) == len(seen) and all(names.match(*pair) for pair in zip(written, seen)):
        return ""
    return "\n".join([f"$ {step.command}", "written:", *written, "seen:", *seen])


def try_sessions(found: Findings, name: str, text: str, shell: Shell) -> int:
    """Runs the sessions of a document, but for the lines that say where the server is. Gives how many commands were run."""
    names, count = Names(), 0
    for step in steps_of(text):
        if step.command.startswith("U=http"):
            continue
        count += 1
        fault = difference(names, step, shell.run(names.told(step.command)))
        found.hold(not fault, f"{name}: {fault}")
    return count
