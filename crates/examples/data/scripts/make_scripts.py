#!/usr/bin/env python3
"""Writes scripts of this folder, what each prints, and the records that they load or dump:

    puts_and_merges     puts, deletes and messages between two vnodes, with each state between them
    part_of_64          a part of many siblings, and one that comes too late
    keys                what a dump of vnode 0 writes: its keys in order, without those of which nothing is known
    full                records with counters and clocks that are full, and what is refused behind them
    longest, too_long   a record of the longest value, and one of a byte more

Nothing of this is asked of the program: beside each line stands what it prints by the rules of siblings, and the tokens and records are
built by their formats."""

import argparse
import base64
import struct
from pathlib import Path

from make_records import record

HERE = Path(__file__).resolve().parent

LAST = 2**62


def token(clock):
    """The context of a clock, from identifiers to counters: entries rise by index, and then by incarnation."""
    entries = sorted((vnode % 65536, vnode // 65536, n) for vnode, n in clock.items())
    packed = b"".join(struct.pack(">BHQ", *entry) for entry in entries)
    return base64.b64encode(struct.pack(">BH", 2, len(entries)) + packed).decode()


def state(siblings, clock):
    """What a get prints."""
    return f"{siblings or 'none'} {token(clock)}"


PUTS_AND_MERGES = [
    ("vnodes 2", None),
    ("put 0 k a -", "0-1"),
    ("get 0 k g", state("0-1=a", {0: 1})),
    ("send 0 k m", "ok"),
    ("put 0 k b -", "0-2"),
    ("get 0 k g", state("0-1=a 0-2=b", {0: 2})),
    ("put 0 k c @g", "0-3"),
    ("get 0 k g", state("0-3=c", {0: 3})),
    # The message is older than that put.
    ("deliver m 0", "same"),
    ("deliver m 0", "same"),
    ("get 0 k g", state("0-3=c", {0: 3})),
    ("put 1 k d -", "1-1"),
    ("get 1 k g", state("1-1=d", {1: 1})),
    ("deliver m 1", "changed"),
    ("get 1 k g", state("0-1=a 1-1=d", {0: 1, 1: 1})),
    ("send 1 k m", "ok"),
    ("deliver m 0", "changed"),
    ("get 0 k h", state("0-3=c 1-1=d", {0: 3, 1: 1})),
    # A put that has seen what the message told, and not the third of vnode 0.
    ("put 0 k e @g", "0-4"),
    ("get 0 k g", state("0-3=c 0-4=e", {0: 4, 1: 1})),
    ("send 0 k m", "ok"),
    ("deliver m 1", "changed"),
    ("get 1 k h", state("0-3=c 0-4=e", {0: 4, 1: 1})),
    ("deliver m 1", "same"),
    ("del 1 k @h", "1-2"),
    ("get 1 k h", state("1-2!", {0: 4, 1: 2})),
    ("put 1 k f @g", "1-3"),
    ("get 1 k h", state("1-2! 1-3=f", {0: 4, 1: 3})),
    (f"put 1 k x ={token({0: 1000})}", "P1"),
    ("deliver m 1", "same"),
    ("get 1 k h", state("1-2! 1-3=f", {0: 4, 1: 3})),
]


def siblings_of_0(count):
    return " ".join(f"0-{n}=v{n}" for n in range(1, count + 1))


PART_OF_64 = [
    ("vnodes 3", None),
    *[(f"put 0 k v{n} -", f"0-{n}") for n in range(1, 64)],
    ("send 0 k m", "ok"),
    ("deliver m 1", "changed"),
    ("deliver m 2", "changed"),
    ("put 0 k v64 -", "0-64"),
    # One content of 64 siblings is sent, and then none.
    ("sum 1 k s", "ok"),
    ("part 0 k s p", "sent 1 of 64"),
    ("deliver p 1", "changed"),
    ("sum 1 k s", "ok"),
    ("part 0 k s p", "sent 0 of 64"),
    ("deliver p 1", "same"),
    ("get 0 k g", state(siblings_of_0(64), {0: 64})),
    ("get 1 k g", state(siblings_of_0(64), {0: 64})),
    # What a part leaves out is replaced before it comes.
    ("sum 2 k s", "ok"),
    ("get 2 k g", state(siblings_of_0(63), {0: 63})),
    ("put 2 k w @g", "2-1"),
    ("part 0 k s p", "sent 1 of 64"),
    ("deliver p 2", "M2"),
    ("get 2 k g", state("2-1=w", {0: 63, 2: 1})),
]

KEYS = [
    ("vnodes 2", None),
    ("put 0 k a -", "0-1"),
    ("put 0 a b -", "0-1"),
    ("get 0 q g", state("", {})),
    ("send 1 p m", "ok"),
    ("deliver m 0", "same"),
    ("put 0 z c -", "0-1"),
    ("put 0 a d -", "0-2"),
    ("restart 0", "ok"),
]

# Seven entries of vnode 0 come before those of the dump.
KEYS_RECORDS = [
    record(b"a", 0, 7, [(0, 2)], [((0, 1), b"b"), ((0, 2), b"d")]),
    record(b"k", 0, 8, [(0, 1)], [((0, 1), b"a")]),
    record(b"z", 0, 9, [(0, 1)], [((0, 1), b"c")]),
]

# Under incarnation 1 vnode 0 is 65536, and vnode 1 is 65537. Of k vnode 0 has counted to the end; the clock of j has no room for another.
FULL_RECORDS = [
    record(b"j", 0, 0, [(vnode, 1) for vnode in range(1024)], []),
    record(b"k", 0, 1, [(65536, LAST)], []),
]

FULL = [
    ("vnodes 2", "loaded 2"),
    ("put 0 k a -", "P3"),
    ("send 0 k m", "ok"),
    ("deliver m 1", "changed"),
    ("put 1 k b -", "65537-1"),
    ("send 1 k m", "ok"),
    ("deliver m 0", "changed"),
    ("get 0 k g", state("65537-1=b", {65536: LAST, 65537: 1})),
    ("put 0 j a -", "P3"),
    ("put 1 j b -", "65537-1"),
    ("send 1 j m", "ok"),
    ("deliver m 0", "M1"),
    ("get 1 j g", state("65537-1=b", {65537: 1})),
]

LONGEST = [("vnodes 1", "loaded 1"), ("put 0 k b -", "65536-1")]

# The record is refused, and no line is done.
TOO_LONG = [("vnodes 1", "refused W4 0"), ("put 0 k b -", None)]

SCRIPTS = {
    "puts_and_merges": PUTS_AND_MERGES,
    "part_of_64": PART_OF_64,
    "keys": KEYS,
    "full": FULL,
    "longest": LONGEST,
    "too_long": TOO_LONG,
}

RECORDS = {
    "keys": KEYS_RECORDS,
    "full": FULL_RECORDS,
    "longest": [record(b"k", 0, 1, [(0, 1)], [((0, 1), b"v" * 65536)])],
    "too_long": [record(b"k", 0, 1, [(0, 1)], [((0, 1), b"v" * 65537)])],
}


def main(folder):
    for name, lines in SCRIPTS.items():
        (folder / f"{name}.script").write_text("".join(f"{line}\n" for line, _ in lines))
        (folder / f"{name}.stdout").write_text("".join(f"{told}\n" for _, told in lines if told is not None))
    for name, records in RECORDS.items():
        (folder / f"{name}.records").write_bytes(b"".join(records))


if __name__ == "__main__":
    parser = argparse.ArgumentParser(description=__doc__, formatter_class=argparse.RawDescriptionHelpFormatter)
    parser.add_argument("--into", type=Path, default=HERE, metavar="FOLDER", help="the folder to write into, in place of this one")
    main(parser.parse_args().into)
