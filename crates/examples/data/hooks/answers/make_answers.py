#!/usr/bin/env python3
"""Writes the images of this folder: hooks of a few slots, one for each answer that a hook may give. verdicts.script and
choices.script run them; what a hook reads and what its answers mean is in docs/FORMATS.md.

    make_answers.py
"""
import argparse
import struct
from pathlib import Path

HERE = Path(__file__).resolve().parent
PRE_COMMIT, RESOLVER = 1, 2


def slot(opcode, dst=0, src=0, offset=0, immediate=0):
    return struct.pack("<BBhi", opcode, dst + 16 * src, offset, immediate)


EXIT = slot(0x95)
ADD_256 = slot(0x07, 0, immediate=256)  # of a pre-commit hook a refusal with that code, of a resolver a sibling's place
WRITE = slot(0xB7, 0, immediate=1) + EXIT


def answer(r0):
    return slot(0xB7, 0, immediate=r0) + EXIT


def tell_length(length):
    """Tells how long the value in the output is."""
    return slot(0x62, 3, immediate=length)


def byte_at(place):
    """Writes the byte at a place of the input."""
    return slot(0x71, 5, 1, place) + slot(0x73, 3, 5, 4) + tell_length(1) + WRITE


def whole_input(length):
    """Writes the whole input window, which has this length, and then the used length in 8 bytes."""
    used = slot(0x7B, 3, 2, 4 + length)
    copied = slot(0xBF, 2, 1) + slot(0xBF, 1, 3) + slot(0x07, 1, immediate=4) + slot(0xB7, 3, immediate=length) + slot(0x85, immediate=1)
    return tell_length(length + 8) + used + copied + WRITE


NEWEST = slot(0x85, immediate=19) + ADD_256 + EXIT
OF_13 = slot(0xB7, 1, immediate=13) + slot(0x85, immediate=64) + ADD_256 + EXIT

# Kind, length of the input window, length of the output window, code.
IMAGES = {
    # Beside two siblings with a value of one byte each, a new value of one byte is shown in 91 bytes.
    "pass": (PRE_COMMIT, 128, 0, answer(0)),
    "pass_91": (PRE_COMMIT, 91, 0, answer(0)),
    "pass_90": (PRE_COMMIT, 90, 0, answer(0)),
    "reject_0": (PRE_COMMIT, 128, 0, answer(256)),
    "reject_7": (PRE_COMMIT, 128, 0, answer(256 + 7)),
    "reject_255": (PRE_COMMIT, 128, 0, answer(256 + 255)),
    "write_room_4": (PRE_COMMIT, 128, 4, answer(1)),
    "write_room_3": (PRE_COMMIT, 128, 3, answer(1)),
    "write_room_0": (PRE_COMMIT, 128, 0, answer(1)),
    "code_2": (PRE_COMMIT, 128, 0, answer(2)),
    "code_255": (PRE_COMMIT, 128, 0, answer(255)),
    "code_512": (PRE_COMMIT, 128, 0, answer(512)),
    # Values in an output window that has room for 4 bytes behind their length.
    "byte_88": (PRE_COMMIT, 128, 8, byte_at(88)),
    "byte_89": (PRE_COMMIT, 128, 8, byte_at(89)),
    "byte_90": (PRE_COMMIT, 128, 8, byte_at(90)),
    "zeros_4": (PRE_COMMIT, 128, 8, tell_length(4) + WRITE),
    "zeros_5": (PRE_COMMIT, 128, 8, tell_length(5) + WRITE),
    "zeros_0": (PRE_COMMIT, 128, 8, WRITE),
    # The whole input. A new value of one byte and no sibling are shown in 41 bytes.
    "input_128": (PRE_COMMIT, 128, 140, whole_input(128)),
    "input_41": (PRE_COMMIT, 41, 53, whole_input(41)),
    "input_40": (PRE_COMMIT, 40, 52, whole_input(40)),
    # What helper 64 answers to 13, as code.
    "of_13_41": (PRE_COMMIT, 41, 0, OF_13),
    "of_13_40": (PRE_COMMIT, 40, 0, OF_13),
    # 65 siblings are never shown.
    "pass_65535": (PRE_COMMIT, 65535, 0, answer(0)),
    # Two siblings with a value of one byte each are shown in 66 bytes.
    "take_0": (RESOLVER, 128, 0, answer(256)),
    "take_1_66": (RESOLVER, 66, 0, answer(257)),
    "take_0_65": (RESOLVER, 65, 0, answer(256)),
    "take_2": (RESOLVER, 128, 0, answer(256 + 2)),
    "take_255": (RESOLVER, 128, 0, answer(256 + 255)),
    "keep": (RESOLVER, 128, 0, answer(0)),
    "resolve_room_4": (RESOLVER, 128, 4, answer(1)),
    "resolve_room_3": (RESOLVER, 128, 3, answer(1)),
    "delete": (RESOLVER, 128, 0, answer(2)),
    "resolve_code_3": (RESOLVER, 128, 0, answer(3)),
    "resolve_code_512": (RESOLVER, 128, 0, answer(512)),
    "siblings_80": (RESOLVER, 80, 92, whole_input(80)),
    "newest": (RESOLVER, 128, 0, NEWEST),
    # 64 tombstones are shown in 1,552 bytes, 65 siblings never.
    "keep_1552": (RESOLVER, 1552, 0, answer(0)),
    "keep_1551": (RESOLVER, 1551, 0, answer(0)),
    "keep_65535": (RESOLVER, 65535, 0, answer(0)),
}


def image(kind, in_len, out_len, code):
    return b"RBPF" + bytes([1, kind, 0, 0]) + struct.pack("<II", in_len, out_len) + code


def main(folder):
    for name, row in IMAGES.items():
        (folder / f"{name}.img").write_bytes(image(*row))


if __name__ == "__main__":
    parser = argparse.ArgumentParser(description=__doc__, formatter_class=argparse.RawDescriptionHelpFormatter)
    parser.add_argument("--into", type=Path, default=HERE, metavar="FOLDER", help="the folder to write into, in place of this one")
    main(parser.parse_args().into)
