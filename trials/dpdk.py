"""Times this store's interpreter (the program `bench`) and that of DPDK in turn, on one core, over nine images.

The images are those of the seven functions in C and two more. Beside an image lies its input, NAME.input, where it has one. Both
have to come to the same answer; the rest is measured, and none of it is judged. Told are the least nanoseconds of all rounds a slot
of the verifier and of DPDK's load, an instruction of both runs, and their ratios. `chrt -f 50` in front keeps the figures steady.
DPDK's load goes over each path, so code with many joined branches gets no answer there. It needs libdpdk and its librte_bpf to
compile `c/dpdk.c` with, and the program `bench`, which `rt run` in its crate builds.
"""
from __future__ import annotations

import math
import os
import random
import re
import shlex
import subprocess
import tempfile
from dataclasses import dataclass
from pathlib import Path

import unproved
from trial import TOP, Findings, Result, Skipped, compiled, tool

NAME = "dpdk"
PROMISES = "A program has one answer by this interpreter and DPDK's; the time of both is measured."
QUICK = False


@dataclass(frozen=True)
class Size:
    """Rounds, and how often a program times itself in each."""

    rounds: int
    turns: int


FULL, SHORT = Size(rounds=6, turns=150), Size(rounds=1, turns=5)

DATA = TOP / "crates" / "examples" / "data"
IMAGES = [*sorted((DATA / "c").glob("*.img")), DATA / "mixed.img", DATA / "accesses.img"]
SECONDS = 20
HEAD = "             slots   verify     load  ratio   steps     run    DPDK  ratio"
OURS = re.compile(r"verify (\S+) ns, (\d+) slots\nrun (\S+) ns, (\d+) instructions\nanswer (\d+)\n")
THEIRS = re.compile(r"answer (\d+)\nload (\S+) ns\nrun (\S+) ns\n")


@dataclass(frozen=True)
class Took:
    """What came of an image: its answer, and the nanoseconds to let it in and to run it. Our own counts slots and instructions, too."""

    answer: int
    load_ns: float
    run_ns: float
    slots: int = 0
    instructions: int = 0


def told(program: Path, image: Path, turns: int) -> str:
    given = image.with_suffix(".input")
    words = [program, image, str(turns), *([given] if given.is_file() else [])]
    try:
        return subprocess.run(words, stdout=subprocess.PIPE, text=True, timeout=SECONDS).stdout
    except subprocess.TimeoutExpired:
        return ""


def ours(bench: Path, image: Path, turns: int) -> Took | None:
    parts = OURS.fullmatch(told(bench, image, turns))
    if parts is None:
        return None
    slots, instructions = int(parts[2]), int(parts[4])
    return Took(int(parts[5]), float(parts[1]) * slots, float(parts[3]) * instructions, slots, instructions)


def theirs(dpdk: Path, image: Path, turns: int) -> Took | None:
    parts = THEIRS.fullmatch(told(dpdk, image, turns))
    return Took(int(parts[1]), float(parts[2]), float(parts[3])) if parts else None


def least(rounds: list[Took]) -> tuple[float, float]:
    """The least nanoseconds of a load and of a run."""
    return min(one.load_ns for one in rounds), min(one.run_ns for one in rounds)


@dataclass(frozen=True)
class Comparison:
    """Both programs, and how often they are asked."""

    bench: Path
    dpdk: Path
    size: Size

    def compare(self, found: Findings, image: Path) -> tuple[float, float] | None:
        """Tells the line of an image, and gives the nanoseconds of both runs; none where one of both doesn't let it in."""
        for side, program in (ours, self.bench), (theirs, self.dpdk):
            if side(program, image, 1) is None:
                found.say(f"{image.stem:12} not let in by {program.name}")
                return None
        turns = self.size.turns
        pairs = [(ours(self.bench, image, turns), theirs(self.dpdk, image, turns)) for _ in range(self.size.rounds)]
        if not found.hold(all(one is not None for pair in pairs for one in pair), f"{image.stem} is let in each time"):
            return None
        answers = {one.answer for pair in pairs for one in pair}
        found.hold(len(answers) == 1, f"{image.stem} has one answer: {answers}")
        (verifying, running), (loading, executing) = (least(list(side)) for side in zip(*pairs))
        slots, steps = pairs[0][0].slots, pairs[0][0].instructions
        let_in = f"{slots:5} {verifying / slots:8.1f} {loading / slots:8.1f} {verifying / loading:6.2f}"
        runs = f"{steps:7} {running / steps:7.2f} {executing / steps:7.2f} {running / executing:6.2f}"
        found.say(f"{image.stem:12} {let_in} {runs}")
        return running, executing


def made(folder: Path) -> Path:
    """The program that times DPDK."""
    asked = subprocess.run([tool("pkg-config"), "--cflags", "--libs-only-L", "libdpdk"], capture_output=True, text=True)
    if asked.returncode:
        raise Skipped("no libdpdk")
    return compiled("dpdk.c", folder / "dpdk", *shlex.split(asked.stdout), "-lrte_bpf", "-lrte_eal")


def run(program: Path, seed: int, size: Size) -> Result:
    found, images = Findings(), random.Random(seed).sample(IMAGES, len(IMAGES))
    with tempfile.TemporaryDirectory() as folder:
        dpdk = made(Path(folder))
        bench = unproved.beside(program, "bench")
        cores = os.sched_getaffinity(0)
        os.sched_setaffinity(0, {max(cores)})
        try:
            comparison = Comparison(bench, dpdk, size)
            found.say(HEAD)
            both = [pair for pair in (comparison.compare(found, image) for image in images) if pair]
        finally:
            os.sched_setaffinity(0, cores)
    if not found.hold(both, "at least one image is let in by both"):
        return found.result("no image was compared")
    running, executing = (sum(side) for side in zip(*both))
    mean = math.exp(sum(math.log(one / other) for one, other in both) / len(both))
    found.say(f"together: run {running:.0f} ns, DPDK {executing:.0f} ns, ratio {running / executing:.2f}; mean of ratios {mean:.2f}")
    return found.result(f"{len(both)} images: {running / executing:.2f} of DPDK's time")
