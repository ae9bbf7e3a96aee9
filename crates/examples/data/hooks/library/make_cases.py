#!/usr/bin/env python3
"""Writes of hooks of this folder NAME.script, NAME.records, which it loads, and NAME.stdout, what it prints.

Siblings of any bytes lie in the records. What a hook chooses of them stands beside them here, by the head of its source, and what a
script prints follows from that by the rules of siblings: dvvstore isn't asked. Those pre-commit hooks that let every word of a script
pass have none.
"""
import argparse
import struct
import sys
from dataclasses import dataclass
from pathlib import Path

HERE = Path(__file__).resolve().parent
sys.path.insert(0, str(HERE.parent.parent / "scripts"))

from make_records import record  # noqa: E402
from make_scripts import token  # noqa: E402

SIBLINGS = 64
WORD = 64  # bytes
OLD, NEW = 0, 65536  # vnode 0 before the load, and under incarnation 1
KEEP, DELETE = "keep", "delete"


def take(index):
    return f"take {index}"


def write(value):
    return f"write {value.hex()}"


def numbers(*parts, size=8):
    return b"".join(part.to_bytes(size, "little") for part in parts)


def field(stamp, text):
    return numbers(stamp) + text.ljust(24, b" ")


def lines(*texts):
    return b"".join(text + b"\n" for text in texts)


# Rows that a value has to look like, of which the third says that a value of 99 bytes begins at 64.
LIKE_ROWS = struct.pack("<IIQII", 7, 1, 9, 64, 99) * 3


@dataclass(frozen=True)
class Case:
    """Siblings of a key, of which None is a tombstone, and what is chosen of them: of a pre-commit hook by each new value."""

    siblings: list
    chosen: object


def many(value, index, other):
    """As many siblings as a key may have, all of a value but for one."""
    return [*[value] * index, other, *[value] * (SIBLINGS - 1 - index)]


def by_time(digits):
    def time(number, more=b""):
        return str(number).zfill(digits).encode() + more

    return [
        Case([time(300, b"open"), time(100, b"shut"), time(200, b" \xff")], take(0)),
        Case([b"old", time(100, b"a"), time(100, b"b"), None], take(1)),
        Case([b"on", time(0)[1:], time(1)[1:] + b"x", b"", LIKE_ROWS, None], KEEP),
        Case([None, time(0)], take(1)),
        Case(many(time(5), 39, time(6)), take(39)),
        Case([*[LIKE_ROWS] * 63, time(7)], take(63)),
    ]


RESOLVERS = {
    "last_seconds": by_time(10),
    "last_millis": by_time(13),
    "last_stamp": [
        Case([numbers(255) + b"x", numbers(256), numbers(1)], take(1)),
        Case([b"1234567", b"", None], KEEP),
        Case([None, numbers(0)], take(1)),
        Case([numbers(7) + b"a", numbers(7) + b"b"], take(0)),
        Case(many(b"\xff" * 7, 63, numbers(2**64 - 1)), take(63)),
    ],
    "longest_value": [
        Case([b"a", None, b"abc", b"xyz", b""], take(2)),
        Case([None, b""], take(1)),
        Case([None, None], take(0)),
        Case(many(b"some", 40, LIKE_ROWS), take(40)),
    ],
    "greatest_text": [
        Case([b"2026-11-30 open", b"2026-12-01", None, b"2026-12-01"], take(1)),
        Case([b"a", b"a\0", b"Z", b""], take(1)),
        Case([None, b""], take(1)),
        Case([None, None], DELETE),
        Case(many(b"\x7f" * 99, 63, b"\x80"), take(63)),
    ],
    "largest_number": [
        Case([b"9", b"10", b"x", None, b"010"], take(1)),
        Case([b"x", b"", None, b"1" * 20, LIKE_ROWS], KEEP),
        Case([b"9" * 19, b"1" * 19], take(0)),
        Case([b"-1", b"0"], take(1)),
        Case(many(b"17", 62, b"18"), take(62)),
    ],
    "counts_by_writer": [
        Case([numbers(0, 1, 2, 3, 4, 5, 6, 7, 8), numbers(99, 8, 7, 6, 5, 4, 3, 2, 1)], write(numbers(52, 8, 7, 6, 5, 5, 6, 7, 8))),
        Case([numbers(1, *[0] * 7, 1), None], write(numbers(1, *[0] * 7, 1))),
        Case([numbers(*[1] * 9), numbers(*[1] * 9)[1:]], KEEP),
        Case([numbers(*[1] * 9), LIKE_ROWS + b"x"], KEEP),
        Case([None, None], DELETE),
        Case(many(numbers(*[1] * 9), 63, numbers(0, 300, *[0] * 7)), write(numbers(307, 300, *[1] * 7))),
    ],
    "union_flags": [
        Case([numbers(1, 2, 4, 8), numbers(16, 2, 0, 2**63)], write(numbers(17, 2, 4, 8 + 2**63))),
        Case([numbers(0, 0, 0, 1), None], write(numbers(0, 0, 0, 1))),
        Case([numbers(0, 0, 0, 1), b""], KEEP),
        Case([None], DELETE),
        Case(many(numbers(1, 0, 0, 0), 63, numbers(0, 0, 0, 2)), write(numbers(1, 0, 0, 2))),
    ],
    "latest_fields": [
        Case(
            [
                field(5, b"Ann") + field(9, b"Oslo") + field(1, b"old") + field(0, b""),
                field(6, b"Anna") + field(8, b"Rome") + field(1, b"new") + field(2**64 - 1, b"last"),
            ],
            write(field(6, b"Anna") + field(9, b"Oslo") + field(1, b"old") + field(2**64 - 1, b"last")),
        ),
        Case([None, field(0, b"a") * 4], write(field(0, b"a") * 4)),
        Case([field(1, b"a") * 4, field(1, b"a") * 3], KEEP),
        Case([None, None, None], DELETE),
        Case(many(field(1, b"a") * 4, 63, field(0, b"b") * 3 + field(2, b"c")), write(field(1, b"a") * 3 + field(2, b"c"))),
    ],
    "union_lines": [
        Case(
            [lines(b"milk", b"eggs"), lines(b"bread", b"milk", b"egg"), lines(b"bread")],
            write(lines(b"milk", b"eggs", b"bread", b"egg")),
        ),
        Case([b"", lines(b"a"), None, lines(b"", b"a", b"")], write(lines(b"a", b""))),
        Case([lines(b"a"), b"b"], KEEP),
        Case([None, None], DELETE),
        Case([*[b""] * 20, *[lines(b"%d" % n) for n in range(44)]], write(lines(*[b"%d" % n for n in range(44)]))),
        Case([b"", *[lines(b"x")] * 45], KEEP),
    ],
    "union_records": [
        Case([b"record 3record 1", b"record 2record 3", b"ecord 3r"], write(b"record 3record 1record 2ecord 3r")),
        Case([None, b"record 1" * 2], write(b"record 1")),
        Case([b"record 1", b"short"], KEEP),
        Case([None], DELETE),
        Case([*[numbers(n) for n in range(63)], numbers(*range(9))], write(numbers(*range(63)))),
        Case([*[numbers(n) for n in range(63)], numbers(*range(10))], KEEP),
    ],
    "union_ids": [
        Case([numbers(256, 1), numbers(3, 256), numbers(2**64 - 1, 0)], write(numbers(0, 1, 3, 256, 2**64 - 1))),
        Case([None, numbers(9, 9, 8)], write(numbers(8, 9))),
        Case([numbers(1), b"1234567"], KEEP),
        Case([None, None], DELETE),
        Case([*[b""] * 16, *[numbers(48 - n) for n in range(48)]], write(numbers(*range(1, 49)))),
        Case([*[b""] * 16, *[numbers(n) for n in range(47)], numbers(1, 2)], KEEP),
    ],
}

PRE_COMMITS = {
    "allow_list": [
        Case([], {"open": "pass", "paid": "pass", "sent": "pass", "returned": "pass"}),
        Case([], {"Open": "reject 1", "ope": "reject 1", "opens": "reject 1"}),
        Case([LIKE_ROWS] * SIBLINGS, {"sent": "pass", "lost": "reject 1"}),
    ],
    "append_only": [
        Case([], {"a": "pass"}),
        Case([b"ab", b"", None], {"ab": "pass", "abc": "pass", "a": "reject 1", "ba": "reject 1"}),
        Case([LIKE_ROWS], {"a": "reject 1"}),
        Case(many(b"0", 63, b"01"), {"012": "pass", "02": "reject 1"}),
    ],
    "prefix": [Case([], {"user": "reject 1", "userA1": "reject 1", "u": "reject 1"})],
    "uuid": [Case([], {"123e4567e89b12d3a456426614174000": "reject 1", "123e4567ae89ba12d3aa456a426614174000": "reject 1"})],
    "version_rises": [
        Case([], {"abc": "reject 1", "0000": "pass", "00001": "pass"}),
        # The lowest byte comes first.
        Case([b"aaab", None, b"zzz"], {"aaac": "pass", "aaab": "reject 2", "zzza": "reject 2", "baabx": "pass"}),
        Case([numbers(2**32 - 1, size=4) + LIKE_ROWS], {"zzzz": "reject 2"}),
        Case(many(b"0000", 63, b"0001"), {"0001": "reject 2", "0002": "pass"}),
    ],
    "write_once": [
        Case([], {"a": "pass"}),
        Case([b"a", None, b"a"], {"a": "pass", "b": "reject 1", "aa": "reject 1"}),
        Case([None], {"b": "pass"}),
        Case(many(b"a", 63, b"b"), {"a": "reject 1", "b": "reject 1"}),
    ],
}


def spelled(dot, value):
    """A sibling as a get prints it."""
    if value is None:
        return f"{dot}!"
    is_word = 1 <= len(value) <= WORD and value.isalnum()
    return f"{dot}={value.decode()}" if is_word else f"{dot}:{value.hex()}"


def held(siblings, clock):
    """What a get prints."""
    return f"{' '.join(siblings) or 'none'} {token(clock)}"


def resolver_lines(name, place, case):
    """The lines of a case of a resolver, each with what it prints: the choice is put in place of the siblings."""
    count = len(case.siblings)
    siblings = [spelled(f"{OLD}-{n}", value) for n, value in enumerate(case.siblings, 1)]
    yield f"get 0 k{place} g", held(siblings, {OLD: count})
    yield f"resolve g {name}.img", case.chosen
    if case.chosen == KEEP:
        yield "commit 0 g", "nothing"
        return
    word, _, rest = case.chosen.partition(" ")
    value = case.siblings[int(rest)] if word == "take" else bytes.fromhex(rest) if word == "write" else None
    yield "commit 0 g", f"{NEW}-1"
    yield f"get 0 k{place} h", held([spelled(f"{NEW}-1", value)], {OLD: count, NEW: 1})


def pre_commit_lines(name, place, case):
    """The lines of a case of a pre-commit hook."""
    for word, verdict in case.chosen.items():
        yield f"check 0 k{place} {word} {name}.img", verdict


def write_hook(folder, name, cases, lines_of):
    """Writes a hook's script, its records and what it prints. Each case has a key of its own."""
    records = b""
    told = [("vnodes 1", f"loaded {sum(1 for case in cases if case.siblings)}")]
    for place, case in enumerate(cases):
        count = len(case.siblings)
        if count:
            dots = [((OLD, n), value) for n, value in enumerate(case.siblings, 1)]
            records += record(b"k%d" % place, OLD, place, [(OLD, count)], dots)
        told += lines_of(name, place, case)
    (folder / f"{name}.records").write_bytes(records)
    (folder / f"{name}.script").write_text("".join(f"{line}\n" for line, _ in told))
    (folder / f"{name}.stdout").write_text("".join(f"{printed}\n" for _, printed in told))


def main(folder):
    for name, cases in RESOLVERS.items():
        write_hook(folder, name, cases, resolver_lines)
    for name, cases in PRE_COMMITS.items():
        write_hook(folder, name, cases, pre_commit_lines)


if __name__ == "__main__":
    parser = argparse.ArgumentParser(description=__doc__, formatter_class=argparse.RawDescriptionHelpFormatter)
    parser.add_argument("--into", type=Path, default=HERE, metavar="FOLDER", help="the folder to write into, in place of this one")
    main(parser.parse_args().into)
