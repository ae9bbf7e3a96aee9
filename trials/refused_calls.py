"""Calls of which each allocation is refused in turn: tests of `test_threads`, with `c/refuse.c` loaded before the system's library.

Of each test it tells the numbers of allocations of its calls. Each has to pass, and each call has to meet a refusal. The tests are
the program that `rt test` in the crate's folder proves and builds, or with `unproved` a build without proofs.
"""
from __future__ import annotations

import os
import random
import subprocess
import tempfile
from pathlib import Path

import unproved
from trial import Findings, Result, Whole, library, tool, words_of

NAME = "refused_calls"
PROMISES = "A call of which an allocation is refused says so, and is whole or leaves all as it was."
QUICK = False
FULL = SHORT = Whole()

CRATE = "test_threads"
AMONG = "tests::refusals::"
LIST_SECONDS, TEST_SECONDS = 60, 600


def tests_of(tests: Path) -> list[str]:
    """The names of the tests that have one thread: those among the refusals."""
    listed = subprocess.run([tests, "--list"], capture_output=True, text=True, timeout=LIST_SECONDS, check=True).stdout
    names = [line.removesuffix(": test") for line in listed.splitlines() if line.endswith(": test")]
    return [name for name in names if name.startswith(AMONG)]


def numbers_of(found: Findings, tests: Path, refuser: Path, test: str) -> list[int]:
    """How many allocations each call of a test was refused; none where the test failed."""
    environment = {**os.environ, "LD_PRELOAD": str(refuser)}
    ran = subprocess.run(
        [tests, test], env=environment, stdin=subprocess.DEVNULL, capture_output=True, text=True, timeout=TEST_SECONDS
    )
    said = ran.stderr.split()
    if ran.returncode or not all(word.isdigit() for word in said):
        found.say(words_of(ran.stdout + ran.stderr))
        return []
    return [int(word) for word in said]


def run(program: Path, seed: int, size: Whole) -> Result:
    tool("cc")
    found, refused = Findings(), 0
    tests = unproved.beside(program, CRATE, are_tests=True)
    names = tests_of(tests)
    found.hold(names, f"there are tests {AMONG}")
    random.Random(seed).shuffle(names)
    with tempfile.TemporaryDirectory() as folder:
        refuser = library("refuse.c", Path(folder, "refuse.so"))
        for name in names:
            numbers = numbers_of(found, tests, refuser, name)
            if found.hold(numbers and all(numbers), f"{name} passes, and each call meets a refusal: {numbers}"):
                found.say(f"{name.removeprefix(AMONG)}: {' '.join(map(str, numbers))}")
            refused += sum(numbers)
    return found.result(f"{refused} allocations of {len(names)} tests refused")
