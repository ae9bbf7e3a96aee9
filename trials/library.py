"""Compares the hooks of the library with what their heads say, on layouts of siblings and on hostile bytes.

Each hook has a model in Python here, which was written from the head of its source. It is run on layouts as a store makes them: of 1 to
64 siblings or a new content beside some, of values that the hook is for, of values that read as rows, and with a last value that ends
at the window's last byte. Its answer, and the value that it writes, have to be the model's. On bytes that are no layout it has to come
to an end. Where the compiler is the one that made the images they are made anew, and have to be the same; the accessors that hooks read
by are tried on offsets and lengths round the windows' ends; and a hook that is too long in one way of compiling has to be made in another.
"""
from __future__ import annotations

import random
import re
import struct
import subprocess
import sys
import tempfile
from collections.abc import Callable, Iterable
from concurrent.futures import ThreadPoolExecutor
from dataclasses import dataclass
from pathlib import Path

from fresh import DATA, try_generator, why_no_c
from trial import C_SOURCES, Findings, Result, words_of

NAME = "library"
PROMISES = "Each ready hook does what its head says, on siblings of any layout and on hostile bytes."
QUICK = True

FOLDER = DATA / "hooks" / "library"
PRE_COMMIT, RESOLVER = 1, 2
KINDS = {"pre-commit": PRE_COMMIT, "resolver": RESOLVER}
HEAD, ROW, WINDOW, MOST_SIBLINGS = 16, 24, 65_536, 64
KEEP = PASS = 0
WRITE, DELETE = 1, 2
THREADS = 4
RUN_SECONDS = 60

# Of each sibling its value; None is a tombstone. A pre-commit hook's first is the new content.
Values = list[bytes | None]
# The answer, and the value that is written.
Verdict = tuple[int, bytes | None]


@dataclass(frozen=True)
class Size:
    """How many layouts and how many inputs of hostile bytes each hook is run on, and whether images are made anew, as `fresh` does too."""

    layouts: int
    hostile: int
    are_made: bool


FULL, SHORT = Size(layouts=200, hostile=40, are_made=True), Size(layouts=20, hostile=4, are_made=False)


# Layouts


def layout(kind: int, values: Values, chance: random.Random) -> bytes:
    """What a hook sees of siblings."""
    place, rows = HEAD + ROW * len(values), []
    for index, value in enumerate(values):
        is_new = kind == PRE_COMMIT and index == 0
        dot = (0, 0) if is_new else (index, chance.randrange(1, 1 << 40))
        vnode, counter = dot
        rows.append(struct.pack("<IIQII", vnode, value is not None, counter, place, len(value or b"")))
        place += len(value or b"")
    return struct.pack("<IIII", kind, len(values), place, 0) + b"".join(rows) + b"".join(value or b"" for value in values)


def like_rows(chance: random.Random) -> bytes:
    """Bytes that read as rows whose values lie anywhere."""
    numbers = [0, 1, 8, 16, 40, 255, 4096, WINDOW - 8, WINDOW - 1, WINDOW, 1 << 31, (1 << 32) - 1]
    row = [struct.pack("<IIQII", chance.choice(numbers), 1, chance.choice(numbers), *chance.choices(numbers, k=2)) for _ in range(3)]
    return b"".join(row)[: chance.randrange(73)]


# Models of resolvers


def taken(best: tuple[int, int] | None) -> Verdict:
    """The sibling of the greatest number and, of equal ones, the first."""
    return (KEEP, None) if best is None else (256 + best[1], None)


def greatest(numbers: Iterable[int | None]) -> tuple[int, int] | None:
    known = [(number, index) for index, number in enumerate(numbers) if number is not None]
    return max(known, key=lambda it: (it[0], -it[1]), default=None)


def spelled(text: bytes) -> int | None:
    return int(text) if re.fullmatch(rb"[0-9]{1,19}", text) else None


def last_by_digits(digits: int) -> Callable[[Values], Verdict]:
    return lambda values: taken(greatest(spelled(it[:digits]) if it and len(it) >= digits else None for it in values))


def last_stamp(values: Values) -> Verdict:
    return taken(greatest(int.from_bytes(it[:8], "little") if it and len(it) >= 8 else None for it in values))


def longest_value(values: Values) -> Verdict:
    return taken(greatest(-1 if it is None else len(it) for it in values))


def largest_number(values: Values) -> Verdict:
    return taken(greatest(None if it is None else spelled(it) for it in values))


def greatest_text(values: Values) -> Verdict:
    present = [it for it in values if it is not None]
    return (256 + values.index(max(present)), None) if present else (DELETE, None)


def of_words(length: int, join: Callable[[list[tuple[int, ...]]], list[int]]) -> Callable[[Values], Verdict]:
    """A hook of values of so many numbers of eight bytes, or tombstones."""

    def model(values: Values) -> Verdict:
        present = [it for it in values if it is not None]
        if any(len(it) != 8 * length for it in present):
            return KEEP, None
        if not present:
            return DELETE, None
        written = join([struct.unpack(f"<{length}Q", it) for it in present])
        return WRITE, struct.pack(f"<{length}Q", *written)

    return model


def counts(values: list[tuple[int, ...]]) -> list[int]:
    of_writers = [max(column) for column in list(zip(*values))[1:]]
    return [sum(of_writers) % 2**64, *of_writers]


def flags(values: list[tuple[int, ...]]) -> list[int]:
    joined = [0] * len(values[0])
    for value in values:
        joined = [one | other for one, other in zip(joined, value)]
    return joined


def fields(values: list[tuple[int, ...]]) -> list[int]:
    written = []
    for place in range(0, 16, 4):
        written += max((value[place : place + 4] for value in values), key=lambda field: field[0])
    return written


def parts_of(values: Values, size: int, most: int) -> list[bytes] | Verdict:
    """The parts of all values, each of so many bytes; or what is answered where they are too many, or not whole."""
    present = [it for it in values if it is not None]
    if not present:
        return DELETE, None
    text = b"".join(present)
    if any(len(it) % size for it in present) or len(text) > size * most:
        return KEEP, None
    return [text[at : at + size] for at in range(0, len(text), size)]


def union_records(values: Values) -> Verdict:
    found = parts_of(values, 8, 72)
    return found if isinstance(found, tuple) else (WRITE, b"".join(dict.fromkeys(found)))


def union_ids(values: Values) -> Verdict:
    found = parts_of(values, 8, 48)
    if isinstance(found, tuple):
        return found
    return WRITE, b"".join(sorted(set(found), key=lambda it: int.from_bytes(it, "little")))


def union_lines(values: Values) -> Verdict:
    present = [it or b"" for it in values]
    if all(it is None for it in values):
        return DELETE, None
    if any(it and not it.endswith(b"\n") for it in present):
        return KEEP, None
    others = b"".join(present[1:]).split(b"\n")[:-1]
    if len(others) > 44:
        return KEEP, None
    there = set(present[0].split(b"\n")[:-1])
    more = [line for line in dict.fromkeys(others) if line not in there]
    return WRITE, present[0] + b"".join(line + b"\n" for line in more)


# Models of pre-commit hooks


def refused(code: int) -> Verdict:
    return 256 + code, None


def size_between(values: Values) -> Verdict:
    new = values[0]
    if new is None or 1 <= len(new) <= 1000:
        return PASS, None
    return refused(2 if new else 1)


def ascii_alone(values: Values) -> Verdict:
    new = values[0] or b""
    if len(new) > 4000:
        return refused(2)
    return (PASS, None) if new.isascii() else refused(1)


def prefix(values: Values) -> Verdict:
    return (PASS, None) if values[0] is None or values[0].startswith(b"user:") else refused(1)


def allow_list(values: Values) -> Verdict:
    return (PASS, None) if values[0] in (None, b"open", b"paid", b"sent", b"returned") else refused(1)


def growth_limit(values: Values) -> Verdict:
    new, *others = (len(it or b"") for it in values)
    return refused(1) if new > max(others, default=0) + 1024 else (PASS, None)


def version_rises(values: Values) -> Verdict:
    new, *others = values
    if new is None:
        return PASS, None
    if len(new) < 4:
        return refused(1)
    version, *seen = (int.from_bytes(it[:4], "little") for it in [new, *others] if it and len(it) >= 4)
    return (PASS, None) if all(version > other for other in seen) else refused(2)


def write_once(values: Values) -> Verdict:
    new, *others = values
    return (PASS, None) if new is None or all(other in (None, new) for other in others) else refused(1)


def append_only(values: Values) -> Verdict:
    new, *others = values
    return (PASS, None) if new is None or all(new.startswith(other or b"") for other in others) else refused(1)


def uuid(values: Values) -> Verdict:
    is_one = values[0] is None or re.fullmatch(rb"[0-9a-f]{8}(-[0-9a-f]{4}){3}-[0-9a-f]{12}", values[0])
    return (PASS, None) if is_one else refused(1)


# Values


def bytes_of(*alphabet: bytes, most: int) -> Callable[[random.Random], bytes]:
    """Values of up to so many words."""
    return lambda chance: b"".join(chance.choices(alphabet, k=chance.randrange(most + 1)))


def words(length: int) -> Callable[[random.Random], bytes]:
    """Values of so many numbers of eight bytes, few enough to be equal now and then."""

    def drawn(chance: random.Random) -> bytes:
        numbers = [chance.choice([0, 1, 2, 3, 255, 256, 1 << 32, 1 << 63, 2**64 - 1, chance.getrandbits(64)]) for _ in range(length)]
        return struct.pack(f"<{length}Q", *numbers)

    return drawn


def some_words(most: int) -> Callable[[random.Random], bytes]:
    return lambda chance: words(chance.randrange(most + 1))(chance)


def timed(digits: int) -> Callable[[random.Random], bytes]:
    def drawn(chance: random.Random) -> bytes:
        time = str(chance.randrange(10**digits - 3, 10**digits + 3) if chance.randrange(4) else 5).zfill(digits)[:digits]
        return time.encode() + chance.choice([b"", b"7", b" on", like_rows(chance)])

    return drawn


def version(chance: random.Random) -> bytes:
    return struct.pack("<I", chance.choice([0, 1, 2, 3, 255, 256, 2**32 - 1])) + chance.choice([b"", b"x", like_rows(chance)])


def ascii_mostly(chance: random.Random) -> bytes:
    text = bytearray(b"a" * chance.choice([*range(20), 3992, 3999, 4000, 4001, 5000]))
    if text and chance.randrange(2):
        text[chance.choice([0, -1, chance.randrange(len(text))])] = chance.choice([127, 128, 255])
    return bytes(text)


def uuid_mostly(chance: random.Random) -> bytes:
    text = bytearray(b"123e4567-e89b-12d3-a456-426614174000")
    if chance.randrange(2):
        text[chance.randrange(len(text))] = chance.choice(b"09afAFg/:`-\0")
    return bytes(text) + chance.choice([b"", b"", b"", b"0", b"\0"])


def of_length(*lengths: int) -> Callable[[random.Random], bytes]:
    return lambda chance: bytes([chance.randrange(256)]) * chance.choice(lengths)


NUMBERS = bytes_of(b"0", b"1", b"9", b"a", most=6)
LINES = bytes_of(b"a\n", b"b\n", b"ab\n", b"\n", b"a\n", b"\0\n", b"longer line\n", most=12)


def spread(parts: list[bytes], first: bytes | None = None) -> Values:
    """Parts that all differ, over as many siblings as there may be, behind a first one if there is one."""
    begin = [] if first is None else [first]
    count = MOST_SIBLINGS - len(begin)
    return begin + [b"".join(parts[at::count]) for at in range(count)]


def numbered(count: int) -> list[bytes]:
    return [struct.pack("<Q", number * 0x9E3779B97F4A7C15 % 2**64) for number in range(count)]


def lines(count: int) -> list[bytes]:
    return [b"%d\n" % number for number in range(count)]


@dataclass(frozen=True)
class Model:
    """What a hook says of siblings, values that it is for, and siblings round what it serves at most."""

    says: Callable[[Values], Verdict]
    draws: Callable[[random.Random], bytes]
    edges: tuple[Values, ...] = ()


MODELS = {
    "allow_list": Model(allow_list, bytes_of(b"open", b"paid", b"sent", b"returned", b"d", most=1)),
    "append_only": Model(append_only, bytes_of(b"a", b"a", b"a", b"b", most=6)),
    "ascii": Model(ascii_alone, ascii_mostly),
    "counts_by_writer": Model(of_words(9, counts), words(9)),
    "greatest_text": Model(greatest_text, bytes_of(b"2026-11-30", b"2026-12-01", b"a", b"\0", b"\xff", most=3)),
    "growth_limit": Model(growth_limit, of_length(0, 1, 10, 11, 1023, 1024, 1025, 1034, 1035, 2048, 2049)),
    "largest_number": Model(largest_number, NUMBERS),
    "last_millis": Model(last_by_digits(13), timed(13)),
    "last_seconds": Model(last_by_digits(10), timed(10)),
    "last_stamp": Model(last_stamp, some_words(3)),
    "latest_fields": Model(of_words(16, fields), words(16)),
    "longest_value": Model(longest_value, of_length(0, 1, 2, 500)),
    "prefix": Model(prefix, bytes_of(b"user:", b"user", b":", b"User:", most=2)),
    "size_between": Model(size_between, of_length(0, 1, 2, 999, 1000, 1001, 9000)),
    "union_flags": Model(of_words(4, flags), words(4)),
    "union_ids": Model(union_ids, some_words(12), (spread(numbered(48)), spread(numbered(49)))),
    "union_lines": Model(union_lines, LINES, (spread(lines(44), b"7\n0\n"), spread(lines(45), b"7\n0\n"), [b"7\n", *[None] * 62, b"0"])),
    "union_records": Model(union_records, some_words(16), (spread(numbered(72)), spread(numbered(73)))),
    "uuid": Model(uuid, uuid_mostly),
    "version_rises": Model(version_rises, version),
    "write_once": Model(write_once, bytes_of(b"same", b"same", b"same", b"sama", most=1), ([b"same", None, b"same"], [b"same", None])),
}


def values_for(kind: int, model: Model, chance: random.Random) -> Values:
    """Siblings that fit the window: of which some are tombstones, and at times values that the hook isn't for."""
    most = MOST_SIBLINGS + (kind == PRE_COMMIT)
    count = chance.choice([1, 2, 2, 2, 3, 3, 4, 5, 8, most - 1, most, chance.randrange(1, most + 1)])
    tombstones, strange = chance.choice([0, 0, 0.1, 0.5, 1]), chance.choice([0, 0, 0, 0.2])
    values: Values = []
    left = WINDOW - HEAD - ROW * count
    for _ in range(count):
        value = like_rows(chance) if chance.random() < strange else model.draws(chance)
        values.append(None if chance.random() < tombstones or len(value) > left else value)
        left -= len(values[-1] or b"")
    return values


def filled(kind: int, values: Values, chance: random.Random) -> Values:
    """The same, with a value among them that is so long that the last one ends where the window does."""
    left = WINDOW - HEAD - ROW * len(values) - sum(len(it or b"") for it in values)
    place = chance.randrange(len(values))
    return [(it or b"") + bytes(left - 1) + b"\n" if index == place and left else it for index, it in enumerate(values)]


def strange_bytes(kind: int, chance: random.Random) -> bytes:
    """A head of any rows, or none, and behind it bytes that read as rows."""
    count = chance.choice([0, 1, 2, 3, 64, 65, 2730, (1 << 32) - 1])
    head = struct.pack("<IIII", kind, count, chance.getrandbits(32), chance.getrandbits(32))
    rest = b"".join(like_rows(chance) for _ in range(chance.choice([0, 2, 70])))
    return (head + rest)[: chance.choice([0, 5, 16, WINDOW, WINDOW, WINDOW])]


def hostile(kind: int, model: Model, chance: random.Random) -> bytes:
    """Bytes that no store makes: all the same, a layout that ends too soon, rows whose values lie anywhere, or strange ones."""
    match chance.randrange(4):
        case 0:
            return chance.choice([b"\x00", b"\x01", b"\xff"]) * chance.choice([1, HEAD, HEAD + ROW, WINDOW - 1, WINDOW, WINDOW])
        case 1:
            whole = layout(kind, values_for(kind, model, chance), chance)
            return whole[: chance.randrange(len(whole))]
        case 2:
            whole = bytearray(layout(kind, values_for(kind, model, chance), chance))
            for _ in range(chance.choice([1, 3, 64])):
                place = HEAD + ROW * chance.randrange(struct.unpack_from("<I", whole, 4)[0]) + chance.choice([16, 20])
                struct.pack_into("<I", whole, place, chance.choice([0, 1, WINDOW - 8, WINDOW - 1, WINDOW, (1 << 31) - 1, (1 << 32) - 1]))
            return bytes(whole)
    return strange_bytes(kind, chance)


# Accessors

ACCESSORS = C_SOURCES / "accessors.c"
BYTES = 4096  # each of its windows
ARRAY = 16  # what it loads into
LARGE = [1 << 16, 1 << 31, (1 << 32) - 1, 1 << 32, 1 << 63, (1 << 64) - BYTES, (1 << 64) - 1]
NONE = (1 << 64) - 1
NARROW = 1 << 32


def edge(chance: random.Random) -> int:
    """An offset or a length, most of them at a window's begin or end."""
    near = chance.choice([0, 24, 32, 100, 1000, BYTES - 100, BYTES - 24, BYTES]) + chance.randrange(-9, 10)
    return chance.choice([max(near, 0), max(near, 0), chance.randrange(30), chance.randrange(BYTES), *LARGE[:: chance.choice([2, 3])]])


def of_accessors(given: bytes) -> bytes:
    """What the accessors come to: the output of the program that calls them."""
    offset, length, place = struct.unpack_from("<3Q", given)
    output = bytearray(BYTES)

    def lies_in(at: int, size: int) -> bool:
        return at + size <= BYTES

    def number(size: int) -> int:
        at = min(offset, BYTES - size)
        return int.from_bytes(given[at : at + size], "little")

    def decimal(size: int) -> int:
        number = spelled(given[offset : offset + size]) if lies_in(offset, size) else None
        return NONE if number is None else number

    def same(size: int) -> bool:
        return lies_in(offset, size) and given[offset : offset + size] == given[32 : 32 + size]

    def of_row(at: int, size: int) -> bytes | None:
        """The value of a row, whose offset and length have 32 bits."""
        at, size = at % NARROW, size % NARROW
        return given[at : at + size] if lies_in(at, size) else None

    is_copied = lies_in(place, length) and lies_in(offset, length)
    if is_copied:
        output[place : place + length] = given[offset : offset + length]
    clamped = min(offset, BYTES - 100)
    is_loaded = lies_in(offset, length) and length <= ARRAY
    array = given[offset : offset + length].ljust(ARRAY, b"\0") if is_loaded else bytes(ARRAY)
    one, other, half = (of_row(*row) for row in ((offset, length), (place, length), (place, length % NARROW // 2)))
    told = [
        is_copied,
        min(offset, 1000),
        HEAD + ROW * min(offset, (BYTES - HEAD) // ROW - 1),
        clamped,
        clamped,
        *map(number, (1, 2, 4, 8)),
        decimal(length),
        same(min(length, 4000)),
        1 + given.find(given[32:34], offset, offset + length) if lies_in(offset, length) else 0,
        decimal(3),
        same(5),
        min(offset % NARROW, BYTES - 100),
        is_loaded,
        *struct.unpack("<2Q", array),
        None not in (one, other) and one == other,
        1 if None in (one, half) else 1 + (one > half) - (one < half),
    ]
    if told[11]:
        told[11] -= offset
    struct.pack_into(f"<{len(told)}Q", output, 0, *told)
    return bytes(output)


def drawn_for_accessors(chance: random.Random) -> bytes:
    """An offset, a length and a place, and text that comes again, but for a byte here and there."""
    text = bytearray(bytes(chance.choices(b"0123456789", k=chance.randrange(1, 8))) * BYTES)[: BYTES - 24]
    for _ in range(chance.choice([0, 100])):
        text[chance.randrange(len(text))] = chance.choice(b"a19")
    length = chance.choice([edge(chance), chance.randrange(22)])
    return struct.pack("<3Q", edge(chance), length, edge(chance)) + text


def made(source: Path, kind: str, image: Path, program: Path) -> str:
    """Makes an image, with windows of BYTES. Gives what the verifier says of it, or why there is none."""
    sys.path.insert(0, str(FOLDER.parent))
    import make_hooks

    try:
        return make_hooks.make(source, kind, BYTES, BYTES, image, program)
    except make_hooks.Refused as why:
        return str(why)


# Runs


@dataclass(frozen=True)
class Told:
    """What a run of a hook printed."""

    status: int
    text: str

    @property
    def is_whole(self) -> bool:
        return self.status == 0 and re.fullmatch(r"answer \d+\nsteps \d+\noutput ([0-9a-f]+|-)\n", self.text) is not None

    def output(self, length: int) -> bytes:
        """So many bytes of the output window."""
        _, _, printed = self.text.rpartition("output ")
        return bytes.fromhex(printed.strip().replace("-", "")).ljust(length, b"\0")

    def verdict(self) -> Verdict | str:
        if not self.is_whole:
            return f"status {self.status}: {self.text}"
        answer = int(self.text.split()[1])
        if answer != WRITE:
            return answer, None
        written = self.output(4 + WINDOW)
        (length,) = struct.unpack_from("<I", written)
        return WRITE, written[4 : 4 + length]


def told(program: Path, image: Path, given: bytes) -> Told:
    with tempfile.NamedTemporaryFile() as file:
        file.write(given)
        file.flush()
        words = [program, "run", image, file.name]
        ran = subprocess.run(words, stdin=subprocess.DEVNULL, capture_output=True, text=True, timeout=RUN_SECONDS)
    return Told(ran.returncode, ran.stdout + ran.stderr)


@dataclass(frozen=True)
class Try:
    """An input of a hook, and the verdict that its model has for it; none of hostile bytes."""

    hook: str
    given: bytes
    verdict: Verdict | None


def tries_of(name: str, size: Size, chance: random.Random) -> Iterable[Try]:
    kind = KINDS[re.match(r"/\* (\S+)", (FOLDER / f"{name}.c").read_text(encoding="utf-8"))[1]]
    model = MODELS[name]
    new = [model.draws(chance)] if kind == PRE_COMMIT else []
    alone = [[*new, *[None] * (MOST_SIBLINGS - 1), model.draws(chance)] for _ in range(size.layouts // 10)]
    for values in (*model.edges, *alone):
        yield Try(name, layout(kind, values, chance), model.says(values))
    for _ in range(size.layouts):
        values = values_for(kind, model, chance)
        if not chance.randrange(5):
            values = filled(kind, values, chance)
        yield Try(name, layout(kind, values, chance), model.says(values))
    for _ in range(size.hostile):
        yield Try(name, hostile(kind, model, chance), None)


def fault_of(program: Path, one: Try) -> str:
    """What doesn't hold of an input; empty where it is as the model has it."""
    seen = told(program, FOLDER / f"{one.hook}.img", one.given)
    on = f"on {words_of(one.given.hex())}"
    if one.verdict is None:
        return "" if seen.is_whole else f"{one.hook} comes to an end: {seen.text}, {on}"
    verdict = seen.verdict()
    return "" if verdict == one.verdict else f"{one.hook}: {words_of(verdict)} in place of {words_of(one.verdict)}, {on}"


def try_accessors(found: Findings, program: Path, count: int, chance: random.Random) -> None:
    """Whether the accessors come to what the header says, on so many inputs."""
    with tempfile.TemporaryDirectory() as folder:
        image = Path(folder, "accessors.img")
        said = made(ACCESSORS, "plain", image, program)
        if not found.hold(said.startswith("accepted"), f"{ACCESSORS.name}: {said}"):
            return

        def fault_on(given: bytes) -> str:
            seen, wanted = told(program, image, given), of_accessors(given)
            is_so = seen.is_whole and seen.output(BYTES) == wanted
            return "" if is_so else f"accessors: {words_of(seen.text)} in place of {words_of(wanted.hex())}, on {words_of(given.hex())}"

        with ThreadPoolExecutor(THREADS) as threads:
            for fault in threads.map(fault_on, [drawn_for_accessors(chance) for _ in range(count)]):
                found.hold(not fault, fault)


# Ways of compiling

UPPER = C_SOURCES / "upper.c"
UPPER_MOST = 256
# What is changed in it, and what is said of it then.
UNFIT = {
    "MOST 256": ("MOST 400", r"\d+ slots are over 4096, \d+ of them upper.c:\d+, .*"),
    "pragma unroll": ("pragma nounroll", r"upper.c:\d+: a loop that is not unrolled goes back to upper.c:\d+: .*"),
}


def try_ways(found: Findings, program: Path, chance: random.Random) -> None:
    """Whether a hook that is too long in the first way of compiling is made in another, and what is in none is told so."""
    with tempfile.TemporaryDirectory() as folder:
        image, changed = Path(folder, "upper.img"), Path(folder, UPPER.name)
        said = made(UPPER, "pre-commit", image, program)
        if found.hold(re.fullmatch(r"accepted \d+ \(.+\)", said), f"{UPPER.name} is accepted in a way but the first: {said}"):
            for length in (0, 1, UPPER_MOST, UPPER_MOST + 1):
                value = chance.randbytes(length)
                wanted = (WRITE, value.upper()) if length <= UPPER_MOST else refused(1)
                seen = told(program, image, layout(PRE_COMMIT, [value], chance)).verdict()
                found.hold(seen == wanted, f"{UPPER.name}: {words_of(seen)} in place of {words_of(wanted)}")
        for text, (other, wanted) in UNFIT.items():
            changed.write_text(UPPER.read_text(encoding="utf-8").replace(text, other), encoding="utf-8")
            said = made(changed, "pre-commit", image, program)
            found.hold(re.fullmatch(wanted, said), f"{other}: {said}")


def run(program: Path, seed: int, size: Size) -> Result:
    found, chance = Findings(), random.Random(seed)
    found.hold({path.stem for path in FOLDER.glob("*.c")} == set(MODELS), f"each hook has a model: {', '.join(MODELS)}")
    why = why_no_c()
    if why:
        found.say(f"nothing is compiled: {why}")
    else:
        try_accessors(found, program, 2 * size.layouts, chance)
        try_ways(found, program, chance)
    if size.are_made and not why:
        try_generator(found, FOLDER / "make_library.py", program)
    for name in MODELS:
        verified = subprocess.run([program, "verify", FOLDER / f"{name}.img"], capture_output=True, text=True, timeout=RUN_SECONDS)
        found.hold(verified.stdout.startswith("accepted "), f"{name}.img is accepted: {verified.stdout}")
        found.say(f"{name}.img: {verified.stdout.strip()}")
    tries = [one for name in MODELS for one in tries_of(name, size, chance)]
    with ThreadPoolExecutor(THREADS) as threads:
        for fault in threads.map(lambda one: fault_of(program, one), tries):
            found.hold(not fault, fault)
    told_of = sum(one.verdict is not None and one.verdict[0] != KEEP for one in tries)
    return found.result(f"{len(MODELS)} hooks on {len(tries)} inputs, {told_of} answers that aren't 0")
