"""What the verifier says of hooks that were written as first comes to mind: `count.py` beside them tells it, and `verdicts` keeps it."""
from __future__ import annotations

import random
import subprocess
import sys
from dataclasses import dataclass
from pathlib import Path

from fresh import DATA, why_no_c
from trial import ALL, Findings, Result, Skipped, words_of

NAME = "corpus"
PROMISES = "Of the hooks of the corpus the verifier says what it said when they were counted last."
QUICK = True

FOLDER = DATA / "hooks" / "corpus"
COUNT_SECONDS = 1_800


@dataclass(frozen=True)
class Size:
    """How many hooks are verified, or ALL."""

    hooks: int


FULL, SHORT = Size(hooks=ALL), Size(hooks=8)


def run(program: Path, seed: int, size: Size) -> Result:
    why = why_no_c()
    if why:
        raise Skipped(why)
    found = Findings()
    *kept, in_all = (FOLDER / "verdicts").read_text(encoding="utf-8").splitlines()
    is_whole = size.hooks == ALL
    if not is_whole:
        kept = sorted(random.Random(seed).sample(kept, size.hooks))
    names = [line.partition(":")[0] for line in kept]
    words = [sys.executable, "-B", FOLDER / "count.py", "--dvvstore", program, *names]
    ran = subprocess.run(words, capture_output=True, text=True, timeout=COUNT_SECONDS)
    found.hold(ran.returncode == 0, f"status {ran.returncode}: {words_of(ran.stderr)}")
    *seen, last = ran.stdout.splitlines() or [""]
    for line in sorted(set(seen) ^ set(kept)):
        found.fail(f"{'seen' if line in seen else 'kept'}: {line}")
    sources = {path.stem for path in FOLDER.glob("*.c")}
    is_counted = (last, sources) == (in_all, set(names))
    found.hold(is_counted or not is_whole, f"each hook has its line: {last}, in place of {in_all}")
    return found.result(last)
