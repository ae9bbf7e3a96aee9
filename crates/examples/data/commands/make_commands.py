#!/usr/bin/env python3
"""Writes what the trials of this folder need besides themselves, and the trials of ten thousand keys.

    make_commands.py        images of hooks, exit.bin, empty.bin, records of clocks, and keys.trials

The other files NAME.trials and NAME.script are written by hand. dvvstore isn't asked what comes of a trial: records are built by the format of
records alone (docs/FORMATS.md), as is the file that a dump makes, whose digest stands in keys.trials.
"""
import argparse
import hashlib
import struct
import sys
from pathlib import Path

HERE = Path(__file__).resolve().parent
sys.path.insert(0, str(HERE.parent / "scripts"))

from make_records import record  # noqa: E402

PLAIN, PRE_COMMIT, RESOLVER = 0, 1, 2


# Images


def slot(opcode, dst=0, src=0, offset=0, immediate=0):
    return struct.pack("<BBhi", opcode, dst + 16 * src, offset, immediate)


EXIT = slot(0x95)
ADD_256 = slot(0x07, immediate=256)  # of a pre-commit hook a refusal with that code, of a resolver a sibling's place
USED_FIRST = slot(0xBF, 1, 2)
HALF_A_CONSTANT = slot(0x18)


def call(number):
    return slot(0x85, immediate=number)


def answer(r0):
    return slot(0xB7, immediate=r0) + EXIT


def write_word(n):
    return slot(0x62, 3, immediate=n)


def image(kind, in_len, out_len, code, mark=b"RBPF", version=1):
    return mark + bytes([version, kind, 0, 0]) + struct.pack("<II", in_len, out_len) + code


IMAGES = {
    # Resolvers.
    "take": image(RESOLVER, 128, 0, answer(256)),
    "keep": image(RESOLVER, 128, 0, answer(0)),
    "delete": image(RESOLVER, 128, 0, answer(2)),
    "wordless": image(RESOLVER, 128, 16, write_word(2) + slot(0x6A, 3, offset=4, immediate=0x0AFF) + answer(1)),
    "empty": image(RESOLVER, 128, 4, answer(1)),
    "unknown": image(RESOLVER, 128, 0, answer(3)),
    "roomless": image(RESOLVER, 128, 3, answer(1)),
    "tenth": image(RESOLVER, 128, 0, answer(256 + 9)),
    "narrow": image(RESOLVER, 40, 0, answer(256)),
    "newest": image(RESOLVER, 128, 0, call(19) + ADD_256 + EXIT),
    # Pre-commit hooks. A new value of one byte and no sibling are shown in 41 bytes.
    "no": image(PRE_COMMIT, 128, 0, answer(257)),
    "no40": image(PRE_COMMIT, 40, 0, answer(257)),
    "no41": image(PRE_COMMIT, 41, 0, answer(257)),
    "pass": image(PRE_COMMIT, 128, 0, answer(0)),
    "change": image(PRE_COMMIT, 128, 8, write_word(3) + slot(0x72, 3, offset=4, immediate=ord("a")) + answer(1)),
    "odd": image(PRE_COMMIT, 128, 0, answer(2)),
    "wide": image(PRE_COMMIT, 128, 4, write_word(1) + answer(1)),
    # The remainder of the used length, by 8 and by 9, is the refusal's code.
    "eight": image(PRE_COMMIT, 128, 0, USED_FIRST + call(64) + ADD_256 + EXIT),
    "nine": image(PRE_COMMIT, 128, 0, USED_FIRST + call(65) + ADD_256 + EXIT),
    # Images of another kind, with faults of their heads and of their code, and such as the verifier refuses.
    "plain": image(PLAIN, 128, 0, answer(0)),
    "plain_16": image(PLAIN, 16, 0, answer(0)),
    "short": b"RBPF",
    "mark": image(RESOLVER, 128, 0, answer(0), mark=b"RBPX"),
    "version": image(RESOLVER, 128, 0, answer(0), version=3),
    "kind": image(3, 128, 0, answer(0)),
    "window": image(RESOLVER, 65537, 0, answer(0)),
    "cut": image(RESOLVER, 128, 0, HALF_A_CONSTANT),
    "code": image(RESOLVER, 16, 0, HALF_A_CONSTANT),
    "outside": image(RESOLVER, 16, 0, slot(0x71, 0, 1, 16) + EXIT),
    "outside_128": image(RESOLVER, 128, 0, slot(0xB7) + slot(0x71, 0, 1, 128) + EXIT),
    "call_66": image(RESOLVER, 128, 0, call(66) + EXIT),
    # A plain program with the widest window, which answers the length of its input.
    "used_length": image(PLAIN, 65536, 0, slot(0xBF, 0, 2) + EXIT),
}


# Records of clocks that are full, or nearly so


TWO_KEYS = record(b"b", 1, 3, [(1, 2)], [((1, 1), None), ((1, 2), b"y")]) + record(b"z", 1, 4, [(1, 1)], [((1, 1), b"x")])


def known(first, count):
    """A record without siblings, whose clock counts the first event of so many vnodes from an identifier on."""
    return record(b"k", 0, 1, [(vnode, 1) for vnode in range(first, first + count)], [])


KNOWN = {
    "fits": [(0, 1024), (1023, 1)],
    "overflows_at_3": [(0, 1024), (1024, 1)],
    "overflows_at_5": [(0, 1024), (0, 1024), (5, 1019), (1024, 1)],
    "overflows_before_the_last": [(0, 512), (512, 513), (0, 0)],
    "no_record_at_4": [(1024, 1), (0, 1024), (0, 1025)],
}


# Ten thousand keys


NUMBERS = range(10_000, 20_000)

LINES = "vnodes 1\n" + "".join(f"put 0 k{n} v{n} -\n" for n in NUMBERS) + "get 0 k10000 g\n"

PRINTED = "0-1\n" * len(NUMBERS) + "0-1=v10000 AgABAAAAAAAAAAAAAAE=\n"


def copies(source, first):
    """The records of a dump whose reads stand in the vnode's journal from a place on."""
    return b"".join(record(f"k{n}".encode(), source, first + i, [(0, 1)], [((0, 1), f"v{n}".encode())]) for i, n in enumerate(NUMBERS))


def keys_trial(name, lines, printed, made):
    digest = hashlib.sha1(made).hexdigest()
    return (
        f"${name}|dump new file 0|load new 2 none.script\n{lines}>\n"
        f"{printed}status 0\nnew {len(made)} bytes, SHA-1 {digest}\n"
        "loaded 10000\nstatus 0\n\n"
    )


# Before the reads of the first dump stand the puts and one read, before those of the second the merges alone.
KEYS = (
    "Ten thousand keys, dumped into a file and loaded from it again, and the same where the vnode is lost behind the puts and brought back. This file\n"
    "is written by make_commands.py.\n\n"
    + keys_trial("ten thousand keys", LINES, PRINTED, copies(0, 10_001))
    + keys_trial(
        "ten_thousand_keys_are_carried_over",
        LINES + "dump 0 d\nload 0 1 d\n",
        PRINTED + "dumped 10000\nloaded 10000\n",
        copies(65_536, 10_000),
    )
)


def main(folder):
    for name, data in IMAGES.items():
        (folder / f"{name}.img").write_bytes(data)
    (folder / "exit.bin").write_bytes(EXIT)
    (folder / "empty.bin").write_bytes(b"")
    for name, clocks in KNOWN.items():
        (folder / f"{name}.records").write_bytes(TWO_KEYS + b"".join(known(*clock) for clock in clocks))
    (folder / "keys.trials").write_text(KEYS)


if __name__ == "__main__":
    parser = argparse.ArgumentParser(description=__doc__, formatter_class=argparse.RawDescriptionHelpFormatter)
    parser.add_argument("--into", type=Path, default=HERE, metavar="FOLDER", help="the folder to write into, in place of this one")
    main(parser.parse_args().into)
