#!/usr/bin/env python3
"""Writes before.records, which `dvvstore dump before.records before.script 0` writes too: by the format of records alone."""

import argparse
import hashlib
import struct
from pathlib import Path

HERE = Path(__file__).resolve().parent


def counted(form, text):
    return struct.pack(form, len(text)) + text


def content(value):
    if value is None:
        return b"\x00"
    return b"\x01" + counted(">H", b"text/plain") + counted(">I", value)


def record(key, source, place, clock, siblings):
    """The record of a key's state, which the entry at a place of a vnode's journal copied."""
    body = counted(">H", b"sim") + counted(">H", key) + struct.pack(">II", source, place)
    body += struct.pack(">H", len(clock)) + b"".join(struct.pack(">IQ", *entry) for entry in clock)
    body += struct.pack(">I", len(siblings))
    body += b"".join(struct.pack(">IQ", *dot) + content(value) for dot, value in siblings)
    return b"DVR1" + counted(">I", body) + hashlib.sha1(body).digest()


# Seven entries of vnode 0 come before those of the dump.
RECORDS = [
    record(b"cart", 0, 7, [(0, 3)], [((0, 2), b"eggs"), ((0, 3), b"bread")]),
    record(b"note", 0, 8, [(0, 2)], [((0, 2), None)]),
]


def main(folder):
    (folder / "before.records").write_bytes(b"".join(RECORDS))


if __name__ == "__main__":
    parser = argparse.ArgumentParser(description=__doc__, formatter_class=argparse.RawDescriptionHelpFormatter)
    parser.add_argument("--into", type=Path, default=HERE, metavar="FOLDER", help="the folder to write into, in place of this one")
    main(parser.parse_args().into)
