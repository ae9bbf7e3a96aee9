#!/usr/bin/env python3
"""Builds images of hooks from C sources, with clang, llvm-objcopy and llvm-objdump.

    make_hooks.py                              all images of this folder
    make_hooks.py my.c pre-commit 4096 0       my.img, from the kind and the lengths of the input and the output window
    make_hooks.py --line my.c 3                the line of my.c that slot 3 of my.img comes from

Where dvvstore is built (or named: --dvvstore PATH) it verifies what was made, and of a refusal the line of C, the instruction, the rule in
words, what to write instead and what was known there are told at once (the command `explain`). What is refused, has too many slots or a
loop is compiled once more without jumps and arithmetic on 32 bits, whose spills are of 8 bytes, which the verifier follows, and then with
them, but with a jump for each test, and stays so where that is accepted.
"""
import argparse
import re
import shutil
import struct
import subprocess
import sys
import tempfile
from collections import Counter
from dataclasses import dataclass
from pathlib import Path

HERE = Path(__file__).resolve().parent
KINDS = {"plain": 0, "pre-commit": 1, "resolver": 2}
VERSION = 2  # verified by the second table of kinds, which knows what the stack holds
SLOT = 8
MOST_SLOTS = 4096
LONGEST_JUMP = 32767
LINES_TOLD = 3  # of a hook that has too many slots
MOST_WINDOW = 65536
HEAD_SIZE = 16

# Kind, length of the input window, length of the output window.
HOOKS = {
    "at_most_32": ("pre-commit", 4096, 0),
    "digits_only": ("pre-commit", 4096, 0),
    "first_sixteen": ("pre-commit", 4096, 20),
    "greatest_counter": ("resolver", 65536, 0),
    "latest_time": ("resolver", 65536, 0),
    "union_of_bits": ("resolver", 65536, 12),
    "largest_counter": ("resolver", 4096, 0),
    "like_a_row": ("resolver", 4096, 28),
    "delete_wins": ("resolver", 4096, 0),
    "union_of_records": ("resolver", 4096, 196),
    "last_sibling": ("resolver", 4096, 0),
    "ends_in_digit": ("pre-commit", 4096, 0),
    "whole_words": ("pre-commit", 4096, 124),
    "same_ends": ("pre-commit", 4096, 0),
}

# Ways of compiling, in the order in which they are tried: an instruction set, and for the last that two tests are never made one.
WAYS = (("-mcpu=v3",), ("-mcpu=v2",), ("-mcpu=v3", "-mllvm", "-simplifycfg-branch-fold-threshold=0"))

# -g adds sections beside the code, and leaves the code as it is.
COMPILE = ["clang", "-O2", "-g", "-Wall", "-target", "bpf", "-mllvm", "-disable-block-placement", "-I", HERE, "-c"]

WIDE, JUMP, FAR_JUMP, CALL, EXIT = 0x18, 0x05, 0x06, 0x85, 0x95
JUMP_CLASSES = (5, 6)
OWN_FUNCTION = 1  # a CALL with this source calls a function of the code itself

WORDS_ON_CONSTANTS = (
    "constants lie in a section of their own, whose address only a linker knows: write a text as a local array, const u8 text[] = \"abc\", "
    "set the elements of an array of larger numbers one by one, and write a longer table as a switch or as arithmetic"
)
WORDS_ON_LOOPS = "write #pragma unroll before it and a constant count, and continue where there is no more, in place of break or return"
WORDS_ON_SLOTS = (
    "test eight bytes at once, or copy a value to the output or a local array and read bytes at constant places there; or serve shorter "
    "values or fewer siblings"
)
WORDS_ON_FUNCTIONS = "a hook is one function: write 'static inline __attribute__((always_inline))' before each other one"

# The accessors of dvvstore.h by which the verifier sees what it lacked, by the rule that was broken.
ACCESSORS = {
    "V23": "at_most; row_at, number_at, value_at, bytes_at, output_at",
    "V24": "row_at, number_at, value_at, bytes_at, output_at",
    "V28": "copy_at, load_at, decimal_at, same_at, same_values, order_values, find_at",
}


class Refused(Exception):
    """Why a source makes no image, in words for its author."""


class Unfit(Refused):
    """Why it makes none where it is compiled in one way: in another it may."""


class GoesBack(Exception):
    """A loop: a jump from one slot back to another."""

    def __init__(self, jump, to):
        super().__init__(jump, to)
        self.jump, self.to = jump, to


@dataclass
class Block:
    """Slots that run one after another, and where they lead."""

    body: range  # without the jump at its end
    jump: int | None = None  # the slot of that jump
    is_conditional: bool = False
    target: int | None = None  # where the jump leads
    following: int | None = None  # where it leads without the jump

    def leads_to(self):
        return [start for start in (self.target, self.following) if start is not None]


# Order of blocks


def opcode(code, at):
    return code[SLOT * at]


def target_of(code, at):
    """Where the instruction at a slot jumps to, or None."""
    operation, _, offset, immediate = struct.unpack_from("<BBhi", code, SLOT * at)
    if operation == FAR_JUMP:
        return at + 1 + immediate
    if operation & 7 in JUMP_CLASSES and operation not in (CALL, EXIT):
        return at + 1 + offset
    return None


def instructions(code):
    """The first slot of each instruction, and the slot behind it."""
    at, end = 0, len(code) // SLOT
    while at < end:
        after = at + (2 if opcode(code, at) == WIDE else 1)
        yield at, after
        at = after


def block_of(code, start, end, last):
    """The block from a slot to before another, whose last instruction is given."""
    target = target_of(code, last)
    if target is None:
        ends = opcode(code, last) == EXIT
        return Block(range(start, end), following=None if ends else end)
    is_conditional = opcode(code, last) not in (JUMP, FAR_JUMP)
    return Block(range(start, last), last, is_conditional, target, end if is_conditional else None)


def blocks_of(code):
    """The blocks of the code, by their first slots."""
    starts, lasts = {0}, {}
    for at, after in instructions(code):
        lasts[after] = at
        target = target_of(code, at)
        if target is not None:
            starts |= {target, after}
        elif opcode(code, at) == EXIT:
            starts.add(after)
    cuts = sorted(starts | {len(code) // SLOT})
    return {start: block_of(code, start, end, lasts[end]) for start, end in zip(cuts, cuts[1:])}


def topological(blocks):
    """First slots of the blocks that slot 0 reaches, each before those that it leads to."""
    finished, entered = [], {0}
    path = [(0, iter(blocks[0].leads_to()))]
    while path:
        start, ways = path[-1]
        to = next(ways, None)
        if to is None:
            finished.append(start)
            path.pop()
        elif to not in blocks:
            raise Refused("the code has a path that runs past its end")
        elif to not in entered:
            entered.add(to)
            path.append((to, iter(blocks[to].leads_to())))
        elif any(to == open_start for open_start, _ in path):
            block = blocks[start]
            raise GoesBack(block.body[-1] if block.jump is None else block.jump, to)
    return finished[::-1]


def ordered(code):
    """The code with its blocks in such an order that every jump goes on, without those that no path reaches; and of each of
    its slots the slot that it comes from."""
    blocks = blocks_of(code)
    order = topological(blocks)
    slots, origins, places, jumps = [], [], {}, []

    def put(slot, origin, to=None):
        if to is not None:
            jumps.append((len(slots), to))
        slots.append(slot)
        origins.append(origin)

    for start, behind in zip(order, [*order[1:], None]):
        block = blocks[start]
        places[start] = len(slots)
        for at in block.body:
            put(code[SLOT * at : SLOT * (at + 1)], at)
        end = block.body[-1] if block.jump is None else block.jump
        if block.is_conditional:
            put(code[SLOT * end : SLOT * (end + 1)], end, block.target)
        goes_on = block.following if block.is_conditional or block.jump is None else block.target
        if goes_on not in (None, behind):
            put(bytes([JUMP]) + bytes(SLOT - 1), end, goes_on)
    for place, to in jumps:
        distance = places[to] - place - 1
        if distance > LONGEST_JUMP:
            raise Unfit(f"a jump over {distance} slots is over {LONGEST_JUMP}: {WORDS_ON_SLOTS}")
        slots[place] = slots[place][:2] + struct.pack("<h", distance) + slots[place][4:]
    return b"".join(slots), origins


# From a source to its code


def tool(name):
    return shutil.which(name) or shutil.which(f"{name}-14") or name


def output_of(*words):
    return subprocess.run(words, check=True, stdout=subprocess.PIPE, text=True).stdout


def lines_of(compiled):
    """The line of C of each slot."""
    lines, line = [], "a line that the compiler does not name"
    for text in output_of(tool("llvm-objdump"), "-d", "-l", "--section=.text", compiled).splitlines():
        if named := re.fullmatch(r"; (.+):([1-9]\d*)", text):
            line = f"{Path(named[1]).name}:{named[2]}"
        elif slot := re.match(r"\s*(\d+):\t(?:[0-9a-f]{2} ?){8}", text):
            lines += lines[-1:] * (int(slot[1]) - len(lines))  # the second slot of a wide instruction
            lines.append(line)
    return lines


def refuse_foreign(compiled, code, lines):
    """Refuses what the code alone can't have: a second function, and addresses that a linker fills in."""
    functions = re.findall(r" F \.text\t\w+ (\S+)", output_of(tool("llvm-objdump"), "-t", compiled))
    if len(functions) != 1:
        raise Refused(f"functions {', '.join(functions) or 'none'}: {WORDS_ON_FUNCTIONS}")
    _, _, records = output_of(tool("llvm-objdump"), "-r", compiled).partition("FOR [.text]:")
    for place, kind, symbol in re.findall(r"^([0-9a-f]+) (\S+) +(\S+)", records.partition("FOR [")[0], re.M):
        words = WORDS_ON_FUNCTIONS if kind == "R_BPF_64_32" else WORDS_ON_CONSTANTS
        raise Refused(f"{lines[int(place, 16) // SLOT]}: {symbol} is not in the code: {words}")
    for at, _ in instructions(code):
        if opcode(code, at) == CALL and code[SLOT * at + 1] >> 4 == OWN_FUNCTION:
            raise Refused(f"{lines[at]}: a call of a function that is not inlined: {WORDS_ON_FUNCTIONS}")


def compile_hook(source, way, in_len, out_len):
    """The ordered code of a C source, compiled in a way for windows of these lengths, and the line of each of its slots."""
    windows = [f"-DINPUT_WINDOW={in_len}", f"-DOUTPUT_WINDOW={out_len}"]
    with tempfile.TemporaryDirectory() as folder:
        compiled, text = Path(folder, "hook.o"), Path(folder, "hook.bin")
        if subprocess.run([*COMPILE, *way, *windows, source, "-o", compiled]).returncode:
            raise Refused("clang does not compile it")
        output_of(tool("llvm-objcopy"), "-O", "binary", "--only-section=.text", compiled, text)
        code, lines = text.read_bytes(), lines_of(compiled)
        refuse_foreign(compiled, code, lines)
    try:
        code, origins = ordered(code)
    except GoesBack as loop:
        words = f"a loop that is not unrolled goes back to {lines[loop.to]}: {WORDS_ON_LOOPS}"
        raise Unfit(f"{lines[loop.jump]}: {words}") from None
    lines = [lines[origin] for origin in origins]
    if len(lines) > MOST_SLOTS:
        longest = ", ".join(f"{count} of them {line}" for line, count in Counter(lines).most_common(LINES_TOLD))
        raise Unfit(f"{len(lines)} slots are over {MOST_SLOTS}, {longest}: {WORDS_ON_SLOTS}")
    return code, lines


# Images


def head(kind, in_len, out_len):
    return b"RBPF" + bytes([VERSION, KINDS[kind], 0, 0]) + struct.pack("<II", in_len, out_len)


def program():
    """The built dvvstore, or None."""
    tops = [folder for folder in HERE.parents if (folder / "crates.txt").is_file()]
    built = [top / "crates" / "dvvstore" / "out" / "dvvstore" for top in tops]
    return next((path for path in built if path.is_file()), None)


def told_by(dvvstore, command, image):
    """The lines that a command of dvvstore prints of an image: none where it has no such command."""
    words = [dvvstore.absolute(), command, image]
    return subprocess.run(words, stdout=subprocess.PIPE, stderr=subprocess.DEVNULL, text=True).stdout.splitlines()


def verdict(dvvstore, image, lines):
    """What dvvstore says of an image, and of one that it refuses the line of the slot, what it looked at there and which accessors help;
    nothing where there is none. An older one says its verdict alone."""
    if dvvstore is None:
        return ""
    told, *looked_at = told_by(dvvstore, "explain", image) or told_by(dvvstore, "verify", image)
    refused = re.fullmatch(r"refused ([DV]\d+) (\d+)", told)
    if not refused:
        return told
    rule, slot = refused.groups()
    helped_by = [f"accessors: {ACCESSORS[rule]}"] if rule in ACCESSORS else []
    return "\n    ".join([f"{told}, {lines[int(slot)]}", *looked_at, *helped_by])


def built_in_ways(source, in_len, out_len):
    """Of each way in which a source makes an image: the way, the code and the line of each slot. There is one, or it says why not."""
    unfit = []
    for way in WAYS:
        try:
            code, lines = compile_hook(source, way, in_len, out_len)
        except Unfit as why:
            unfit.append(why)
        else:
            yield way, code, lines
    if len(unfit) == len(WAYS):
        raise unfit[0]


def make(source, kind, in_len, out_len, image, dvvstore=None):
    """Writes the image of a source, and gives what the verifier (of dvvstore, or of the built one) says of it: that of the first way in
    which it is accepted, or else of the first in which there is an image."""
    dvvstore, refused = dvvstore or program(), []
    for way, code, lines in built_in_ways(source, in_len, out_len):
        image.write_bytes(head(kind, in_len, out_len) + code)
        said = verdict(dvvstore, image, lines)
        if not said.startswith("refused"):
            return f"{said} ({' '.join(way)})" if said and way != WAYS[0] else said
        refused.append((image.read_bytes(), said))
    image.write_bytes(refused[0][0])
    return refused[0][1]


def lines_in(source):
    """The line of each slot of a source's image, by the way in which the image was compiled."""
    image = source.with_suffix(".img")
    made = image.read_bytes() if image.is_file() else head("plain", MOST_WINDOW, MOST_WINDOW)
    _, in_len, out_len = struct.unpack_from("<8sII", made)
    built = [(code, lines) for _, code, lines in built_in_ways(source, in_len, out_len)]
    return next((lines for code, lines in built if code == made[HEAD_SIZE:]), built[0][1])


def tell(source, hook, image, dvvstore=None):
    """Makes an image, and tells how that went. Gives whether it was made and, where there is a dvvstore, accepted."""
    try:
        said = make(source, *hook, image, dvvstore)
    except Refused as why:
        print(f"{source.name}: no image: {why}", file=sys.stderr)
        return False
    print(f"{image.name}: {said or 'made; not verified, since dvvstore is not built'}")
    return not said.startswith("refused")


def line_at(source, slot):
    """Prints the line of a slot of a source's image. Gives whether there is one."""
    try:
        lines = lines_in(source)
    except Refused as why:
        print(f"{source.name}: no image: {why}", file=sys.stderr)
        return False
    is_one = 0 <= slot < len(lines)
    print(lines[slot] if is_one else f"the slots are 0 to {len(lines) - 1}")
    return is_one


def window(text):
    length = int(text)
    if not 0 <= length <= MOST_WINDOW:
        raise argparse.ArgumentTypeError(f"a window has 0 to {MOST_WINDOW} bytes")
    return length


def words():
    parser = argparse.ArgumentParser(description=__doc__, formatter_class=argparse.RawDescriptionHelpFormatter)
    parser.add_argument("source", type=Path, nargs="?", help="a hook's C source")
    parser.add_argument("kind", choices=KINDS, nargs="?")
    parser.add_argument("in_len", type=window, nargs="?", help="bytes of the input window")
    parser.add_argument("out_len", type=window, nargs="?", help="bytes of the output window")
    parser.add_argument("--dvvstore", type=Path, metavar="PATH", help="the program that verifies")
    parser.add_argument("--into", type=Path, default=HERE, metavar="FOLDER", help="where all images of this folder go, in place of it")
    parser.add_argument("--line", nargs=2, metavar=("SOURCE", "SLOT"), help="tell the line of a slot")
    given = parser.parse_args()
    if given.source and given.out_len is None:
        parser.error("a source needs its kind and the lengths of both windows")
    return given


def main():
    given = words()
    if given.line:
        source, slot = given.line
        return line_at(Path(source), int(slot))
    if given.source:
        return tell(given.source, (given.kind, given.in_len, given.out_len), given.source.with_suffix(".img"), given.dvvstore)
    return all([tell(HERE / f"{name}.c", hook, given.into / f"{name}.img", given.dvvstore) for name, hook in HOOKS.items()])


if __name__ == "__main__":
    sys.exit(0 if main() else 1)
