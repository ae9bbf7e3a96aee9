#!/usr/bin/env python3
"""Makes the image of each C function of this folder, and beside it what the function, compiled for this machine, answers to its input.

    make_c.py          NAME.img and NAME.answer, for each name in INPUTS, of NAME.c and NAME.input

The code is for machines without jumps on 32 bits (-mcpu=v2), so that interpreters that have none run it too.
"""
import argparse
import ctypes
import struct
import subprocess
import sys
import tempfile
from pathlib import Path

HERE = Path(__file__).resolve().parent
sys.path.insert(0, str(HERE.parent / "hooks"))
import make_hooks

WINDOW = 64
NATIVE = ["gcc", "-O2", "-Wall", "-Wno-unknown-pragmas", "-shared", "-fPIC"]

INPUTS = {
    "hash": b"The quick brown fox jumps over the lazy dog",
    "checksum": b"12345678",
    "number": b"-1234567890123456x",
    "bits": bytes(range(1, 250, 7))[:32],
    "division": struct.pack("<9H", 40961, 1, 65535, 4096, 12345, 0, 30000, 777, 50022),
    "branches": b"the quick brown fox jumps".ljust(32, b"\0") + b"the quick brown fox leaps",
    "buffers": bytes(n * 167 % 256 for n in range(64)),
}


def answer_of(source, window):
    """What the function of a source answers where this machine's compiler compiles it."""
    with tempfile.TemporaryDirectory() as folder:
        library = Path(folder, "function.so")
        subprocess.run([*NATIVE, source, "-o", library], check=True)
        function = getattr(ctypes.CDLL(str(library)), source.stem)
        function.restype = ctypes.c_uint64
        return function(ctypes.create_string_buffer(window, WINDOW))


def main(folder):
    make_hooks.WAYS = (("-mcpu=v2",),)
    fine = True
    for name, given in INPUTS.items():
        source = HERE / f"{name}.c"
        fine &= make_hooks.tell(source, ("plain", WINDOW, 0), folder / f"{name}.img")
        (folder / f"{name}.input").write_bytes(given)
        (folder / f"{name}.answer").write_text(f"answer {answer_of(source, given)}\n")
    return fine


if __name__ == "__main__":
    parser = argparse.ArgumentParser(description=__doc__, formatter_class=argparse.RawDescriptionHelpFormatter)
    parser.add_argument("--into", type=Path, default=HERE, metavar="FOLDER", help="the folder to write into, in place of this one")
    sys.exit(0 if main(parser.parse_args().into) else 1)
