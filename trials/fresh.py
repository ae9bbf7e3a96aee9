"""Whether what the generators of the data write is what lies beside them.

Each `make_*.py` of the repository writes into a folder of its own, and each file of that is compared with the one beside the
generator. Each image there has to be made by one. Images of C are compared where the compiler is the one that made them, and are
left out otherwise.
"""
from __future__ import annotations

import random
import re
import shutil
import subprocess
import sys
import tempfile
from pathlib import Path

from trial import TOP, Findings, Result, Whole, words_of

NAME = "fresh"
PROMISES = "Each generated file is what its generator writes today, and each image has a generator."
QUICK = True
FULL = SHORT = Whole()

DATA = TOP / "crates" / "examples" / "data"
OF_C = {"make_c.py": (), "make_hooks.py": ("--dvvstore",), "make_library.py": ("--dvvstore",)}
CLANG_MAJOR = 14
MAKE_SECONDS = 900


def why_no_c() -> str:
    """Why images of C can't be made here as they lie there; empty where they can."""
    clang = shutil.which("clang") or shutil.which(f"clang-{CLANG_MAJOR}")
    if clang is None or not (shutil.which("llvm-objdump") or shutil.which(f"llvm-objdump-{CLANG_MAJOR}")):
        return "no clang or llvm-objdump"
    version = re.search(r"version (\d+)", subprocess.run([clang, "--version"], capture_output=True, text=True).stdout)
    if version is None or int(version[1]) != CLANG_MAJOR:
        return f"clang is not of version {CLANG_MAJOR}"
    return "" if shutil.which("gcc") else "no gcc"


def make(generator: Path, program: Path, folder: Path) -> str:
    """Has a generator write into a folder. Gives what went wrong."""
    flags = [word for flag in OF_C.get(generator.name, ()) for word in (flag, program)]
    words = [sys.executable, "-B", generator, "--into", folder, *flags]
    ran = subprocess.run(words, capture_output=True, text=True, timeout=MAKE_SECONDS)
    return "" if ran.returncode == 0 else words_of(f"status {ran.returncode}: {ran.stdout}{ran.stderr}")


def try_generator(found: Findings, generator: Path, program: Path) -> set[Path]:
    """Compares what a generator writes. Gives the files that it is to write."""
    where = generator.relative_to(TOP)
    with tempfile.TemporaryDirectory() as name:
        folder = Path(name)
        wrong = make(generator, program, folder)
        found.hold(not wrong, f"{where}: {wrong}")
        made = sorted(folder.iterdir())
        found.hold(made, f"{where} writes something")
        for path in made:
            kept = generator.parent / path.name
            is_same = kept.is_file() and kept.read_bytes() == path.read_bytes()
            found.hold(is_same, f"{kept.relative_to(TOP)} is what {where} writes")
        found.say(f"{where}: {len(made)} files")
    return {generator.parent / path.name for path in made}


def run(program: Path, seed: int, size: Whole) -> Result:
    found, why = Findings(), why_no_c()
    generators = [path for path in sorted(TOP.glob("crates/*/data/**/make_*.py")) if not (why and path.name in OF_C)]
    random.Random(seed).shuffle(generators)
    made = set().union(*(try_generator(found, generator, program) for generator in generators))
    if why:
        found.say(f"images of C are left out: {why}")
    else:
        for image in sorted(DATA.rglob("*.img")):
            found.hold(image in made, f"{image.relative_to(TOP)} is made by a generator")
    left_out = f", C left out: {why}" if why else ""
    return found.result(f"{len(made)} files of {len(generators)} generators{left_out}")
