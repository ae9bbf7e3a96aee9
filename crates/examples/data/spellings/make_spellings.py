#!/usr/bin/env python3
"""Writes the rows of this folder, records and contexts spelled rightly and wrongly, and what is told of them.

    make_spellings.py        records.rows and contexts.rows, with records.told and contexts.told

A row has a name, text, and digits in hexadecimal: its bytes are those of the text, and behind them those that the digits spell. Lines that
begin with # are comments. The program `examples` isn't asked what it tells of a row: that comes from the parts that the row is built
from, and of a damaged one the fault is written beside it here. docs/FORMATS.md has the formats, and the numbers of the faults.
"""
import argparse
import base64
import hashlib
import struct
from pathlib import Path

HERE = Path(__file__).resolve().parent

MAX_COUNTER = 2**62

# The marks of records whose place has four bytes and eight.
NARROW = b"DVR1"
WIDE = b"DVR2"


# Rows, and what is told of them


def row(name, text, rest, told):
    """A row, and the line that is told of it."""
    line = f"{name}|{text}|{rest.hex()}" if rest else f"{name}|{text}"
    return line, f"{name}|{told}"


def clock_told(entries):
    return "clock" + "".join(f" {vnode}:{n}" for vnode, n in sorted(entries))


# Records


def short(data):
    """Bytes behind their length in two bytes."""
    return struct.pack(">H", len(data)) + data


def long(data):
    """Bytes behind their length in four bytes."""
    return struct.pack(">I", len(data)) + data


def shown(data):
    """What is told of a name or a value: how long it is where it is long."""
    return data.decode() if len(data) <= 16 else f"{len(data)} bytes"


# A content: its bytes, and what is told of it.
TOMBSTONE = b"\0", "!"


def value(media, data):
    return b"\1" + short(media) + long(data), f"={shown(media)}:{shown(data)}"


def broken(*content):
    """Bytes that are no content."""
    return bytes(content), None


class Record:
    """The parts of a record; the number before the siblings may be another than theirs."""

    def __init__(self, clock, siblings, count=None, bucket=b"sim", key=b"k", sender=0, at=1):
        self.clock = clock
        self.siblings = siblings
        self.count = len(siblings) if count is None else count
        self.bucket = bucket
        self.key = key
        self.sender = sender
        self.at = at

    def head(self, wide=None):
        """What stands before the clock; the place in eight bytes where that is asked for, or four don't hold it."""
        place = ">IQ" if self.is_wide(wide) else ">II"
        return short(self.bucket) + short(self.key) + struct.pack(place, self.sender, self.at)

    def is_wide(self, wide=None):
        return self.at >= 2**32 if wide is None else wide

    def clock_bytes(self):
        return struct.pack(">H", len(self.clock)) + b"".join(struct.pack(">IQ", *entry) for entry in self.clock)

    def sibling_bytes(self):
        siblings = b"".join(struct.pack(">IQ", vnode, n) + content[0] for vnode, n, content in self.siblings)
        return struct.pack(">I", self.count) + siblings

    def body(self, wide=None):
        return self.head(wide) + self.clock_bytes() + self.sibling_bytes()

    def bytes(self):
        return framed(self.body(), WIDE if self.is_wide() else NARROW)

    def told(self):
        """What is told of a record that is read, as one with these parts is."""
        siblings = "".join(f" {vnode}-{n}{content[1]}" for vnode, n, content in self.siblings)
        parts = [
            f"{len(self.bytes())} bytes",
            f"{shown(self.bucket)} {shown(self.key)}",
            f"from {self.sender} at {self.at}",
            clock_told(self.clock),
            f"siblings{siblings}",
            "written again",
        ]
        return "|".join(parts)


def framed(body, mark=NARROW):
    """A record with this body, under the right digest."""
    return mark + long(body) + hashlib.sha1(body).digest()


def record_row(name, data, told):
    """A row of these bytes; its text are the first four, where the mark stands."""
    return row(name, data[:4].decode(), data[4:], told)


def row_of(name, record, fault=None):
    """A row of a record, and its fault, if it has one."""
    return record_row(name, record.bytes(), fault or record.told())


ONE_VALUE = Record([(0, 1)], [(0, 1, value(b"text/plain", b"a"))])

TOMBSTONE_BESIDE_VALUE = Record(
    [(0, 2), (65_537, MAX_COUNTER)],
    [(0, 2, TOMBSTONE), (65_537, 5, value(b"t", b""))],
    bucket=b"b",
    key=b"k2",
    sender=65_537,
    at=7,
)


def whole_records():
    yield row_of("one value", ONE_VALUE)
    yield row_of("tombstone beside value", TOMBSTONE_BESIDE_VALUE)
    yield record_row("record before another", ONE_VALUE.bytes() * 2, ONE_VALUE.told())


def fronts():
    for length in range(len(ONE_VALUE.bytes())):
        yield record_row(f"front of {length}", ONE_VALUE.bytes()[:length], "W1")


# A byte of one value that is changed, the length of the record's front that is read, and what is told: faults are told in their order.
CHANGES = [
    (0, 92, "W2"),
    (3, 92, "W2"),
    (0, 8, "W2"),
    (0, 7, "W1"),
    (4, 92, "W1"),
    (7, 92, "W1"),
    (8, 92, "W3"),
    (37, 92, "W3"),
    (71, 92, "W3"),
    (72, 92, "W3"),
    (91, 92, "W3"),
]


def changed_bytes():
    for place, length, fault in CHANGES:
        data = bytearray(ONE_VALUE.bytes())
        data[place] ^= 1
        yield record_row(f"byte {place} changed, front of {length}", data[:length], fault)


# How long a bucket, a key and a media type are, and why the record isn't read, if it isn't.
NAMES = [
    (1, 1, 1, None),
    (0, 1, 1, "W4"),
    (64, 1, 1, None),
    (65, 1, 1, "W4"),
    (1, 0, 1, "W4"),
    (1, 255, 1, None),
    (1, 256, 1, "W4"),
    (1, 1, 0, "W4"),
    (1, 1, 127, None),
    (1, 1, 128, "W4"),
    (64, 255, 127, None),
]


def longest_names():
    for bucket, key, media, fault in NAMES:
        content = value(b"x" * media, b"")
        record = Record([(0, 1)], [(0, 1, content)], bucket=b"x" * bucket, key=b"x" * key)
        yield row_of(f"bucket of {bucket}, key of {key}, media type of {media}", record, fault)


# The tombstones 0-1 and 0-2.
FIRST = (0, 1, TOMBSTONE)
SECOND = (0, 2, TOMBSTONE)

# Clocks over one sibling, and why the record isn't read, if it isn't.
CLOCKS = [
    ("0:1", [(0, 1)], None),
    ("0:2 1:9", [(0, 2), (1, 9)], None),
    ("0:0", [(0, 0)], "W4"),
    ("0:2^62", [(0, MAX_COUNTER)], None),
    ("0:2^62+1", [(0, MAX_COUNTER + 1)], "W4"),
    ("0:1 0:2", [(0, 1), (0, 2)], "W4"),
    ("1:1 0:1", [(1, 1), (0, 1)], "W4"),
    ("1:1", [(1, 1)], "W4"),
    ("no entries", [], "W4"),
    ("1024 entries", [(vnode, 1) for vnode in range(1_024)], None),
    ("1025 entries", [(vnode, 1) for vnode in range(1_025)], "W4"),
]


def clocks():
    for name, clock, fault in CLOCKS:
        yield row_of(name, Record(clock, [FIRST]), fault)
    record = Record([], [FIRST])
    yield record_row("one byte of the number of entries", framed(record.head() + b"\0" + record.sibling_bytes()), "W4")


# Siblings under the clock 0:2 1:9, the number before them, and why the record isn't read, if it isn't.
SEEN = [(0, 2), (1, 9)]

SIBLINGS = [
    # the dots of siblings
    ("none", 0, [], None),
    ("0-1", 1, [FIRST], None),
    ("0-1 0-2", 2, [FIRST, SECOND], None),
    ("0-2 0-1", 2, [SECOND, FIRST], "W4"),
    ("0-1 0-1", 2, [FIRST, FIRST], "W4"),
    ("0-2 1-1", 2, [SECOND, (1, 1, TOMBSTONE)], None),
    ("1-1 0-2", 2, [(1, 1, TOMBSTONE), SECOND], "W4"),
    ("0-3", 1, [(0, 3, TOMBSTONE)], "W4"),
    ("2-1", 1, [(2, 1, TOMBSTONE)], "W4"),
    ("0-0", 1, [(0, 0, TOMBSTONE)], "W4"),
    # contents, and numbers of siblings
    ("one byte follows", 1, [(0, 1, broken(0, 0))], "W4"),
    ("many bytes follow", 1, [FIRST, FIRST], "W4"),
    ("one is missing", 2, [FIRST], "W4"),
    ("no content", 1, [(0, 1, broken())], "W4"),
    ("unknown content", 1, [(0, 1, broken(2))], "W4"),
    ("unknown content as long as a value", 1, [(0, 1, broken(255, 0, 1, *b"m", 0, 0, 0, 0))], "W4"),
    ("a value", 1, [(0, 1, value(b"m", b"v"))], None),
    ("a value past the end", 1, [(0, 1, broken(1, 0, 1, *b"m", 0, 0, 0, 2, *b"v"))], "W4"),
]


def siblings():
    for name, count, items, fault in SIBLINGS:
        yield row_of(name, Record(SEEN, items, count), fault)


# Places that are spelled as they are, and those that aren't: whether their bytes are eight, and the mark before them.
PLACES = [("0", 0), ("2^32-1", 2**32 - 1), ("2^32", 2**32), ("2^62", 2**62), ("2^64-1", 2**64 - 1)]

UNCANONICAL_PLACES = [
    ("place 0 in eight bytes", 0, True, WIDE),
    ("place 2^32-1 in eight bytes", 2**32 - 1, True, WIDE),
    ("place 1 in four bytes behind DVR2", 1, False, WIDE),
    ("place 2^32 in eight bytes behind DVR1", 2**32, True, NARROW),
]


def places():
    for name, at in PLACES:
        yield row_of(f"place {name}", Record([(0, 1)], [FIRST], at=at))
    for name, at, wide, mark in UNCANONICAL_PLACES:
        yield record_row(name, framed(Record([(0, 1)], [FIRST], at=at).body(wide), mark), "W4")
    data = Record([(0, 1)], [FIRST], at=2**32).bytes()
    for length in (4, 8, 13, len(data) - 1):
        yield record_row(f"place 2^32, front of {length}", data[:length], "W1")
    yield record_row("place 2^32 behind DVR3", b"DVR3" + data[4:], "W2")
    changed = bytearray(data)
    changed[24] ^= 1
    yield record_row("place 2^32, byte 24 changed", bytes(changed), "W3")


RECORDS = {
    "Whole records; what follows one doesn't count.": whole_records,
    "Each front of a record is cut.": fronts,
    "A byte of a record is changed.": changed_bytes,
    "How long names and media types may be.": longest_names,
    "Clocks over one sibling, under right digests.": clocks,
    "Siblings under the clock 0:2 1:9, under right digests.": siblings,
    "Places, in four bytes behind DVR1 and in eight behind DVR2, under right digests.": places,
}


# Contexts


def index(vnode):
    return vnode % 2**16


def incarnation(vnode):
    return vnode // 2**16


def first_text(entries):
    """The text of a clock by version 1."""
    data = b"".join(struct.pack(">IQ", *entry) for entry in sorted(entries))
    return base64.b64encode(struct.pack(">BH", 1, len(entries)) + data).decode()


def second_text(entries):
    """The text of a clock by version 2, which has no index above 254."""
    ordered = sorted((index(vnode), incarnation(vnode), n) for vnode, n in entries)
    data = b"".join(struct.pack(">BHQ", *entry) for entry in ordered)
    return base64.b64encode(struct.pack(">BH", 2, len(entries)) + data).decode()


def third_text(entries):
    """The text of a clock by version 3, which has no identifier that ends in 255."""
    ordered = sorted((vnode % 2**8, vnode // 2**8, n) for vnode, n in entries)
    data = b"".join(struct.pack(">IQ", place * 2**24 + number, n) for place, number, n in ordered)
    return base64.b64encode(struct.pack(">BH", 3, len(entries)) + data).decode()


def text_of(entries):
    """The text that is written of a clock: of the first of versions 2, 3 and 1 that can tell each of its vnodes."""
    if all(index(vnode) <= 254 for vnode, _ in entries):
        return second_text(entries)
    if all(vnode % 2**8 <= 254 for vnode, _ in entries):
        return third_text(entries)
    return first_text(entries)


def context_row(name, entries, text):
    """A row of a text that is read as this clock."""
    again = "again" if text == text_of(entries) else "otherwise"
    return row(name, text, b"", f"{clock_told(entries)}|{text_of(entries)}|written {again}")


# Clocks, each with the text that is written of it and its text by version 1, as another program wrote them.
CLOCK_TEXTS = [
    ("a clock of no entries", [], "AgAA", "AQAA"),
    ("0:2", [(0, 2)], "AgABAAAAAAAAAAAAAAI=", "AQABAAAAAAAAAAAAAAAC"),
    ("0:1 1:1", [(0, 1), (1, 1)], "AgACAAAAAAAAAAAAAAEBAAAAAAAAAAAAAQ==", "AQACAAAAAAAAAAAAAAABAAAAAQAAAAAAAAAB"),
    (
        "0:2 1:1 2:1",
        [(0, 2), (1, 1), (2, 1)],
        "AgADAAAAAAAAAAAAAAIBAAAAAAAAAAAAAQIAAAAAAAAAAAAB",
        "AQADAAAAAAAAAAAAAAACAAAAAQAAAAAAAAABAAAAAgAAAAAAAAAB",
    ),
    ("the last index that version 2 has", [(254, 1)], "AgAB/gAAAAAAAAAAAAE=", "AQABAAAA/gAAAAAAAAAB"),
    (
        "two incarnations of an index",
        [(0, 1), (65_536, 1)],
        "AgACAAAAAAAAAAAAAAEAAAEAAAAAAAAAAQ==",
        "AQACAAAAAAAAAAAAAAABAAEAAAAAAAAAAAAB",
    ),
    (
        "the later incarnation first, since its index is lower",
        [(1, 1), (65_536, 2)],
        "AgACAAABAAAAAAAAAAIBAAAAAAAAAAAAAQ==",
        "AQACAAAAAQAAAAAAAAABAAEAAAAAAAAAAAAC",
    ),
    (
        "two indexes in two incarnations, and another in a third",
        [(1, 3), (65_536, 4), (65_537, 5), (131_079, 6)],
        "AgAEAAABAAAAAAAAAAQBAAAAAAAAAAAAAwEAAQAAAAAAAAAFBwACAAAAAAAAAAY=",
        "AQAEAAAAAQAAAAAAAAADAAEAAAAAAAAAAAAEAAEAAQAAAAAAAAAFAAIABwAAAAAAAAAG",
    ),
    ("the lowest index that version 2 hasn't", [(255, 1)], "AQABAAAA/wAAAAAAAAAB", "AQABAAAA/wAAAAAAAAAB"),
    ("the first number, which version 2 hasn't", [(256, 1)], "AwABAAAAAQAAAAAAAAAB", "AQABAAABAAAAAAAAAAAB"),
    (
        "the vnodes of a start",
        [(122_880_256, 3), (122_880_257, 1), (122_880_258, 2)],
        "AwADAAdTAQAAAAAAAAADAQdTAQAAAAAAAAABAgdTAQAAAAAAAAAC",
        "AQADB1MBAAAAAAAAAAADB1MBAQAAAAAAAAABB1MBAgAAAAAAAAAC",
    ),
    (
        "two starts, in the order of indexes",
        [(122_880_257, 4), (122_881_024, 1), (122_881_025, 2)],
        "AwADAAdTBAAAAAAAAAABAQdTAQAAAAAAAAAEAQdTBAAAAAAAAAAC",
        "AQADB1MBAQAAAAAAAAAEB1MEAAAAAAAAAAABB1MEAQAAAAAAAAAC",
    ),
    (
        "a vnode that version 2 has, beside one that it hasn't",
        [(65_537, 1), (122_880_257, 2)],
        "AwACAQABAAAAAAAAAAABAQdTAQAAAAAAAAAC",
        "AQACAAEAAQAAAAAAAAABB1MBAQAAAAAAAAAC",
    ),
    (
        "the last vnode that version 3 has, and the greatest counter",
        [(4_294_967_294, MAX_COUNTER)],
        "AwAB/v///0AAAAAAAAAA",
        "AQAB/////kAAAAAAAAAA",
    ),
    (
        "a vnode that version 3 hasn't, beside one that version 2 hasn't",
        [(255, 1), (256, 2)],
        "AQACAAAA/wAAAAAAAAABAAABAAAAAAAAAAAC",
        "AQACAAAA/wAAAAAAAAABAAABAAAAAAAAAAAC",
    ),
    (
        "an index above 254 behind others, in a later incarnation",
        [(0, 1), (1, 2), (65_791, 1)],
        "AQADAAAAAAAAAAAAAAABAAAAAQAAAAAAAAACAAEA/wAAAAAAAAAB",
        "AQADAAAAAAAAAAAAAAABAAAAAQAAAAAAAAACAAEA/wAAAAAAAAAB",
    ),
    (
        "an index above 254 before others",
        [(255, 3), (65_536, 1)],
        "AQACAAAA/wAAAAAAAAADAAEAAAAAAAAAAAAB",
        "AQACAAAA/wAAAAAAAAADAAEAAAAAAAAAAAAB",
    ),
    (
        "the last vnode and the greatest counter",
        [(4_294_967_295, MAX_COUNTER)],
        "AQAB/////0AAAAAAAAAA",
        "AQAB/////0AAAAAAAAAA",
    ),
    (
        "the last vnode that version 2 has, and the greatest counter",
        [(4_294_902_014, MAX_COUNTER)],
        "AgAB/v//QAAAAAAAAAA=",
        "AQAB//8A/kAAAAAAAAAA",
    ),
]


def clock_texts():
    for name, entries, text, first in CLOCK_TEXTS:
        assert (text, first) == (text_of(entries), first_text(entries)), name
        yield context_row(name, entries, text)
        if first != text:
            yield context_row(f"{name}, by version 1", entries, first)
    for name, entries, text in THIRD_TEXTS:
        assert text == third_text(entries), name
        yield context_row(f"{name}, by version 3", entries, text)


# Clocks that version 2 can tell, and so is written by, as version 3 tells them.
THIRD_TEXTS = [
    ("a clock of no entries", [], "AwAA"),
    ("0:2", [(0, 2)], "AwABAAAAAAAAAAAAAAAC"),
    ("the last index of the first number", [(254, 1)], "AwAB/gAAAAAAAAAAAAAB"),
    ("the later number first, since its index is lower", [(1, 1), (65_536, 2)], "AwACAAABAAAAAAAAAAACAQAAAAAAAAAAAAAB"),
]


# Clocks of the most entries, each of an incarnation of its own: of how many indexes, which fall as the incarnations rise, how the text
# begins, and how many characters it has.
MOST_ENTRIES = [
    ("1024 entries by version 2", 255, "AgQAAAADAAAAAAAAAAEA", 15_024),
    ("1024 entries by version 1", 256, "AQQAAAAA/wAAAAAAAAAB", 16_388),
]


def most_entries():
    for name, indexes, begin, length in MOST_ENTRIES:
        entries = [(number * 2**16 + (1_023 - number) % indexes, 1) for number in range(1_024)]
        text = text_of(entries)
        assert text.startswith(begin) and len(text) == length, name
        yield context_row(name, entries, text)


# Texts of no version, and their faults.
NO_VERSION = [
    ("no byte", "", "K4"),
    # versions that there are not, with and without what would follow
    ("version 0", "AA==", "K2"),
    ("version 4", "BA==", "K2"),
    ("version 0 of no entry", "AAAA", "K2"),
    ("version 4 of no entry", "BAAA", "K2"),
    ("version 255 of no entry", "/wAA", "K2"),
    ("version 0 of an entry of 12 bytes", "AAABAAAAAAAAAAAAAAAB", "K2"),
    ("version 4 of entries of 12 bytes", "BAACAAAAAwAAAAAAAAABAAAAAwAAAAAAAAAB", "K2"),
    ("version 4 of entries of 11 bytes", "BAACAwAAAAAAAAAAAAEDAAAAAAAAAAAAAQ==", "K2"),
    ("version 0 of an entry of 11 bytes", "AAABAAAAAAAAAAAAAAE=", "K2"),
    ("version 4 of 1025 entries", "BAQB", "K2"),
    # entries of another version
    ("version 3 of entries of 11 bytes", "AwACAwAAAAAAAAAAAAEDAAAAAAAAAAAAAQ==", "K4"),
    ("version 1 of an entry of 11 bytes", "AQABAAAAAAAAAAAAAAE=", "K4"),
    ("version 2 of an entry of 12 bytes", "AgABAAAAAAAAAAAAAAAB", "K4"),
    ("version 2 of entries of 12 bytes", "AgACAAAAAwAAAAAAAAABAAAAAwAAAAAAAAAB", "K4"),
    # as many bytes as eleven entries of twelve, and as twelve of eleven, have
    (
        "version 1 of twelve entries of 11 bytes",
        base64.b64encode(b"\1\0\x0c" + bytes(132)).decode(),
        "K4",
    ),
    (
        "version 2 of eleven entries of 12 bytes",
        base64.b64encode(b"\2\0\x0b" + bytes(132)).decode(),
        "K4",
    ),
    # what is in no base64
    ("a sign of no alphabet, by version 1", "AQ*A", "K1"),
    ("a sign of no alphabet, by version 2", "Ag*A", "K1"),
    ("a space before", " AQAA", "K1"),
    ("a space between", "AgAA AgAA", "K1"),
    ("padding before the end", "Ag==AAAA", "K1"),
]

# Damaged texts of version 1.
FIRST_VERSION = [
    ("the version alone", "AQ==", "K4"),
    ("half a count", "AQA=", "K4"),
    ("one entry announced, none there", "AQAB", "K4"),
    ("one entry announced, two there", "AQABAAAAAAAAAAAAAAABAAAAAQAAAAAAAAAB", "K4"),
    ("two entries announced, one there", "AQACAAAAAAAAAAAAAAAB", "K4"),
    ("a trailing byte", "AQABAAAAAAAAAAAAAAABAA==", "K4"),
    ("a trailing byte after no entry", "AQAAAA==", "K4"),
    ("1024 entries announced", "AQQAAAAAAAAAAAAAAAAB", "K4"),
    ("1025 entries announced", "AQQBAAAAAAAAAAAAAAAB", "K5"),
    ("65535 entries announced", "Af//", "K5"),
    ("an entry twice", "AQACAAAAAAAAAAAAAAABAAAAAAAAAAAAAAAB", "K3"),
    ("equal vnodes", "AQACAAAAAwAAAAAAAAABAAAAAwAAAAAAAAAC", "K3"),
    ("falling vnodes", "AQACAAAABAAAAAAAAAABAAAAAwAAAAAAAAAB", "K3"),
    ("the last two fall", "AQADAAAAAQAAAAAAAAABAAAABAAAAAAAAAABAAAAAwAAAAAAAAAB", "K3"),
    ("rising by index, not by number", "AQACAAEAAAAAAAAAAAABAAAAAQAAAAAAAAAB", "K3"),
    ("a counter of 0", "AQABAAAAAAAAAAAAAAAA", "K5"),
    ("a counter past the limit", "AQABAAAAAEAAAAAAAAAB", "K5"),
    # the order is told first
    ("a counter of 0, then equal vnodes", "AQADAAAAAAAAAAAAAAAAAAAAAwAAAAAAAAABAAAAAwAAAAAAAAAB", "K3"),
    ("no padding for two signs", "AQ", "K1"),
    ("one sign of padding for two", "AQ=", "K1"),
    ("no padding for one sign", "AQA", "K1"),
    ("bits behind two signs of padding", "AR==", "K1"),
    ("bits behind one sign of padding", "AQB=", "K1"),
    ("padding where none is due", "AQAA=", "K1"),
    ("a whole group of padding", "AQAA====", "K1"),
    ("the URL alphabet", "AQAB_____0AAAAAAAAAA", "K1"),
]

# Damaged texts of version 3.
THIRD_VERSION = [
    ("the version alone", "Aw==", "K4"),
    ("one entry announced, none there", "AwAB", "K4"),
    ("one entry announced, two there", "AwABAAAAAAAAAAAAAAABAQAAAAAAAAAAAAAB", "K4"),
    ("a trailing byte", "AwABAAAAAAAAAAAAAAABAA==", "K4"),
    ("1025 entries announced", "AwQB", "K5"),
    ("equal vnodes", "AwACAAAAAwAAAAAAAAABAAAAAwAAAAAAAAAB", "K3"),
    ("falling numbers of an index", "AwACAAAAAwAAAAAAAAABAAAAAgAAAAAAAAAB", "K3"),
    ("rising by identifier, not by index", "AwACAQAAAAAAAAAAAAABAAAAAQAAAAAAAAAB", "K3"),
    ("a counter of 0", "AwABAAAAAAAAAAAAAAAA", "K5"),
    ("a counter past the limit", "AwABAAAAAEAAAAAAAAAB", "K5"),
    ("an index of 255", "AwAB/wAAAQAAAAAAAAAB", "K5"),
    # the order is told first
    ("an index of 255 before another", "AwAC/wAAAAAAAAAAAAABAAAAAQAAAAAAAAAB", "K3"),
    ("bits behind two signs of padding", "Ax==", "K1"),
]

# Damaged texts of version 2.
SECOND_VERSION = [
    ("the version alone", "Ag==", "K4"),
    ("half a count", "AgA=", "K4"),
    ("one entry announced, none there", "AgAB", "K4"),
    ("one entry announced, two there", "AgABAAAAAAAAAAAAAAEBAAAAAAAAAAAAAQ==", "K4"),
    ("two entries announced, one there", "AgACAAAAAAAAAAAAAAE=", "K4"),
    ("a trailing byte", "AgABAAAAAAAAAAAAAAEA", "K4"),
    ("a trailing byte after no entry", "AgAAAA==", "K4"),
    ("1024 entries announced", "AgQAAAAAAAAAAAAAAAE=", "K4"),
    ("1025 entries announced", "AgQBAAAAAAAAAAAAAAE=", "K5"),
    ("65535 entries announced", "Av//", "K5"),
    ("an entry twice", "AgACAAAAAAAAAAAAAAEAAAAAAAAAAAAAAQ==", "K3"),
    ("equal vnodes", "AgACAwABAAAAAAAAAAEDAAEAAAAAAAAAAg==", "K3"),
    ("falling indexes", "AgACBAAAAAAAAAAAAAEDAAAAAAAAAAAAAQ==", "K3"),
    ("falling incarnations of an index", "AgACAwACAAAAAAAAAAEDAAEAAAAAAAAAAQ==", "K3"),
    ("the last two fall", "AgADAQAAAAAAAAAAAAEEAAAAAAAAAAAAAQMAAAAAAAAAAAAB", "K3"),
    ("rising by number, not by index", "AgACAQAAAAAAAAAAAAEAAAEAAAAAAAAAAQ==", "K3"),
    ("a counter of 0", "AgABAAAAAAAAAAAAAAA=", "K5"),
    ("a counter past the limit", "AgABAAAAQAAAAAAAAAE=", "K5"),
    # the order is told first
    ("a counter of 0, then equal vnodes", "AgADAAAAAAAAAAAAAAADAAAAAAAAAAAAAQMAAAAAAAAAAAAB", "K3"),
    ("an index of 255", "AgAB/wAAAAAAAAAAAAE=", "K5"),
    ("an index of 255 behind another", "AgACAAAAAAAAAAAAAAH/AAAAAAAAAAAAAQ==", "K5"),
    ("an index of 255 in two incarnations", "AgAC/wAAAAAAAAAAAAH/AAEAAAAAAAAAAQ==", "K5"),
    ("an index of 255 with a counter of 0", "AgAB////AAAAAAAAAAA=", "K5"),
    # the order is told first
    ("an index of 255 twice", "AgAC/wAAAAAAAAAAAAH/AAAAAAAAAAAAAQ==", "K3"),
    ("an index of 255 before another", "AgAC/wAAAAAAAAAAAAEAAAEAAAAAAAAAAQ==", "K3"),
    ("no padding for two signs", "Ag", "K1"),
    ("one sign of padding for two", "AgACAAAAAAAAAAAAAAEBAAAAAAAAAAAAAQ=", "K1"),
    ("no padding for one sign", "AgABAAAAAAAAAAAAAAE", "K1"),
    ("bits behind two signs of padding", "Ah==", "K1"),
    ("bits behind one sign of padding", "AgABAAAAAAAAAAAAAAF=", "K1"),
    ("bits behind two signs of padding, after entries", "AgACAAAAAAAAAAAAAAEBAAAAAAAAAAAAAR==", "K1"),
    ("padding where none is due", "AgAA=", "K1"),
    ("a whole group of padding", "AgAA====", "K1"),
    ("a sign of padding too many, after an entry", "AgABAAAAAAAAAAAAAAE==", "K1"),
    ("the URL alphabet", "AgAB_v__QAAAAAAAAAA=", "K1"),
]


def damaged(rows, ending=""):
    for name, text, fault in rows:
        yield row(name + ending, text, b"", fault)


# Bytes behind a text that belong to no token, as a header's value may have them.
BEHIND = [
    ("a line feed behind", "AgAA", b"\n"),
    ("a byte of 0 behind", "AgA", b"\0"),
    ("a byte behind, which makes it no text", "AQA", b"\xc1"),
]


def bytes_behind():
    for name, text, rest in BEHIND:
        yield row(name, text, rest, "K1")


# The clock 0:1 1:1 as versions 1 and 2 write it.
WHOLE = {
    2: "AgACAAAAAAAAAAAAAAEBAAAAAAAAAAAAAQ==",
    1: "AQACAAAAAAAAAAAAAAABAAAAAQAAAAAAAAAB",
}


def cut_texts():
    for version, text in WHOLE.items():
        for length in range(len(text)):
            fault = "K1" if length % 4 else "K4"
            yield row(f"the first {length} of version {version}", text[:length], b"", fault)


CONTEXTS = {
    "Clocks as text.": clock_texts,
    "Clocks of the most entries.": most_entries,
    "Damaged texts of no version.": lambda: damaged(NO_VERSION),
    "Damaged texts of version 1.": lambda: damaged(FIRST_VERSION, ", by version 1"),
    "Damaged texts of version 2.": lambda: damaged(SECOND_VERSION, ", by version 2"),
    "Damaged texts of version 3.": lambda: damaged(THIRD_VERSION, ", by version 3"),
    "Bytes behind a text.": bytes_behind,
    "A text is cut at each character.": cut_texts,
}


def write(folder, name, groups):
    """Writes the rows of groups to a file, each group behind a comment, and what is told of them, a line each, beside it."""
    lines = []
    told = []
    for comment, rows in groups.items():
        lines.append(f"# {comment}")
        for line, what in rows():
            lines.append(line)
            told.append(what)
    (folder / f"{name}.rows").write_text("".join(f"{line}\n" for line in lines))
    (folder / f"{name}.told").write_text("".join(f"{line}\n" for line in told))


def main(folder):
    write(folder, "records", RECORDS)
    write(folder, "contexts", CONTEXTS)


if __name__ == "__main__":
    parser = argparse.ArgumentParser(description=__doc__, formatter_class=argparse.RawDescriptionHelpFormatter)
    parser.add_argument("--into", type=Path, default=HERE, metavar="FOLDER", help="the folder to write into, in place of this one")
    main(parser.parse_args().into)
