"""Wrong bodies that the gate doesn't try: `wrong-bodies/try.py` lays them into a copy of the repository.

The short form proves nothing: it sees whether the text that each of them changes stands once where it should. In the full one the
prover has to refuse each: that needs no program, but `rt`, and takes an hour and more.
"""
from __future__ import annotations

import subprocess
import sys
from dataclasses import dataclass
from pathlib import Path

from trial import TOP, Findings, Result, tool

NAME = "wrong_bodies"
PROMISES = "Each wrong body changes a text that stands once (short), and is refused (in full)."
QUICK = True


@dataclass(frozen=True)
class Size:
    """Whether the prover is asked, or texts alone are compared."""

    is_proved: bool


FULL, SHORT = Size(is_proved=True), Size(is_proved=False)

SCRIPT = TOP / "wrong-bodies" / "try.py"


def tell(found: Findings, flag: str) -> list[str]:
    """What the script tells, whose status has to be 0."""
    words = [sys.executable, "-B", SCRIPT, flag]
    ran = subprocess.run(words, cwd=TOP, stdin=subprocess.DEVNULL, stdout=subprocess.PIPE, stderr=subprocess.STDOUT, text=True)
    lines = ran.stdout.splitlines()
    for line in lines:
        found.say(line)
    found.hold(ran.returncode == 0, f"try.py {flag}: status {ran.returncode}")
    return lines


def run(program: Path, seed: int, size: Size) -> Result:
    found = Findings()
    lines = tell(found, "--texts")
    if size.is_proved and found.is_fine:
        tool("rt")
        lines = tell(found, "--all")
    return found.result(lines[-1] if lines else "nothing was told")
