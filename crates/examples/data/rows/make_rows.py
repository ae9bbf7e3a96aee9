#!/usr/bin/env python3
"""Writes the rows of this folder: programs, and what the rules say of them.

    make_rows.py        NAME.rows and NAME.told, for each name in VERDICTS and RUNS

A row has a name, a program and its input in hexadecimal, and the program's slots in words, which are a comment. In NAME.told stands
the row's name and behind it what `dvvstore verify`, or `dvvstore run`, tells of the program, and its status. Neither is asked: what is told comes from
the instruction table of RFC 9669, sections 4 and 5, and from the rules of the decoder and of the verifier.
"""
import argparse
import struct
from pathlib import Path

HERE = Path(__file__).resolve().parent

MAX = 2**64 - 1
LEAST = 2**63
NARROW = 2**32 - 1
NARROW_LEAST = 2**31


# Slots: their bytes, and what they do in words


def fields(opcode, dst, src, offset, imm):
    """A slot by its fields; the immediate may be written as a number without a sign."""
    code = struct.pack("<BBhI", opcode, src << 4 | dst, offset, imm % 2**32)
    return code, f"{opcode:02x} r{dst} r{src} {offset:+} {imm}"


def named(words, *parts):
    return fields(*parts)[0], words


def wide(dst, n):
    """A constant of 64 bits, in two slots."""
    code = struct.pack("<BBhIII", 0x18, dst, 0, n % 2**32, 0, n >> 32)
    return code, f"r{dst} = {n:#x} (wide)"


def put(dst, n):
    return named(f"r{dst} = {n}", 0xB7, dst, 0, 0, n)


def copied(dst, src):
    return named(f"r{dst} = r{src}", 0xBF, dst, src, 0, 0)


def raised(dst, n):
    return named(f"r{dst} += {n}", 0x07, dst, 0, 0, n)


def added(dst, src):
    return named(f"r{dst} += r{src}", 0x0F, dst, src, 0, 0)


def load_byte(dst, base, offset):
    return named(f"r{dst} = byte r{base}{offset:+}", 0x71, dst, base, offset, 0)


def store_byte(base, offset, n):
    return named(f"byte r{base}{offset:+} = {n}", 0x72, base, 0, offset, n)


def jump(ahead):
    return named(f"goto {ahead:+}", 0x05, 0, 0, ahead, 0)


def call(number):
    return named(f"call {number}", 0x85, 0, 0, 0, number)


EXIT = named("exit", 0x95, 0, 0, 0, 0)
CLEAR = put(0, 0)
NOTHING = jump(0)


def code_of(slots):
    return b"".join(code for code, _ in slots)


def image(in_len, out_len, slots, version=1):
    """A plain image with windows of these lengths."""
    return b"RBPF" + bytes([version, 0, 0, 0]) + struct.pack("<II", in_len, out_len) + code_of(slots)


# What is told


def accepted(slots):
    return f"accepted {slots}\n"


def refused(rule, slot):
    return f"refused V{rule} {slot}\n"


def comes_to(answer, steps, output=b""):
    """What a run tells: its output up to the last byte that is not zero."""
    shown = bytes(output).rstrip(b"\0").hex()
    return f"answer {answer}\nsteps {steps}\noutput {shown or '-'}\n"


def row(name, code, told, slots=(), given=b""):
    words = "; ".join(words for _, words in slots)
    status = int(told.startswith("refused"))
    return f"{name}|{code.hex()}|{bytes(given).hex()}|{words}", f"{told}status {status}\n"


def raw_rows(rows):
    """Rows of raw code, which has windows of 4,096 bytes."""
    for name, slots, told in rows:
        yield row(name, code_of(slots), told, slots)


def image_rows(in_len, out_len, rows):
    """Rows of images, of each version: either table of kinds tells the same."""
    for name, slots, told in rows:
        yield row(name, image(in_len, out_len, slots), told, slots)
        yield row(f"{name}, version 2", image(in_len, out_len, slots, 2), told, slots)


def run_rows(rows, windows=None):
    """Rows of a name, slots, an input, and the answer, the steps and the front of the output."""
    for name, slots, given, ended in rows:
        code = code_of(slots) if windows is None else image(*windows, slots)
        yield row(name, code, comes_to(*ended), slots, bytes(given))


# Operations and jumps

# The opcode, offset and immediate of an operation on R0 and R1, these two before it, and R0 after it.
ARITHMETIC = [
    # 64 bits
    (0x07, 0, -1, 5, 0, 4),
    (0x07, 0, 1, MAX, 0, 0),
    (0x0f, 0, 0, MAX, 2, 1),
    (0x17, 0, 5, 3, 0, 0xffff_ffff_ffff_fffe),
    (0x1f, 0, 0, 0, 1, MAX),
    (0x27, 0, -2, 3, 0, 0xffff_ffff_ffff_fffa),
    (0x2f, 0, 0, 0x1_0000_0001, 0x1_0000_0001, 0x2_0000_0001),
    (0x37, 0, -1, LEAST, 0, 0),
    (0x37, 0, -1, MAX, 0, 1),
    (0x37, 0, 0, 7, 0, 0),
    (0x37, 1, -1, LEAST, 0, LEAST),
    (0x37, 1, 0, MAX, 0, 0),
    (0x3f, 0, 0, 7, 0, 0),
    (0x3f, 0, 0, MAX, 2, 0x7fff_ffff_ffff_ffff),
    (0x3f, 1, 0, 0xffff_ffff_ffff_fff9, 2, 0xffff_ffff_ffff_fffd),
    (0x3f, 1, 0, 7, 0xffff_ffff_ffff_fffe, 0xffff_ffff_ffff_fffd),
    (0x47, 0, -16, 0x0f, 0, MAX),
    (0x4f, 0, 0, 0xf0, 0x0f, 0xff),
    (0x57, 0, -256, MAX, 0, 0xffff_ffff_ffff_ff00),
    (0x5f, 0, 0, 0b1100, 0b1010, 0b1000),
    (0x67, 0, 63, 1, 0, LEAST),
    (0x67, 0, 64, 1, 0, 1),
    (0x67, 0, 65, 1, 0, 2),
    (0x67, 0, -1, 1, 0, LEAST),
    (0x6f, 0, 0, 3, 63, LEAST),
    (0x6f, 0, 0, 3, 64, 3),
    (0x77, 0, 63, LEAST, 0, 1),
    (0x77, 0, 64, LEAST, 0, LEAST),
    (0x7f, 0, 0, MAX, 1, 0x7fff_ffff_ffff_ffff),
    (0x7f, 0, 0, MAX, 127, 1),
    (0x87, 0, 0, 1, 0, MAX),
    (0x87, 0, 0, LEAST, 0, LEAST),
    (0x87, 0, 0, 0, 0, 0),
    (0x97, 0, 5, 17, 0, 2),
    (0x97, 0, 0, LEAST, 0, LEAST),
    (0x97, 0, -1, MAX, 0, 0),
    (0x97, 1, 3, 0xffff_ffff_ffff_fff9, 0, MAX),
    (0x97, 1, -1, LEAST, 0, 0),
    (0x9f, 0, 0, 7, 0, 7),
    (0x9f, 0, 0, MAX, 10, 5),
    (0x9f, 1, 0, 7, 0xffff_ffff_ffff_fffd, 1),
    (0x9f, 1, 0, 0xffff_ffff_ffff_fff9, 0, 0xffff_ffff_ffff_fff9),
    (0xa7, 0, -1, 0, 0, MAX),
    (0xaf, 0, 0, 0b1100, 0b1010, 0b0110),
    (0xb7, 0, -1, 0, 0, MAX),
    (0xb7, 0, 0x7fff_ffff, MAX, 0, 0x7fff_ffff),
    (0xbf, 0, 0, 0, LEAST, LEAST),
    (0xbf, 8, 0, 0, 0x80, 0xffff_ffff_ffff_ff80),
    (0xbf, 8, 0, 0, 0x17f, 0x7f),
    (0xbf, 16, 0, 0, 0x8000, 0xffff_ffff_ffff_8000),
    (0xbf, 16, 0, 0, 0xffff_7fff, 0x7fff),
    (0xbf, 32, 0, 0, NARROW_LEAST, 0xffff_ffff_8000_0000),
    (0xbf, 32, 0, 0, 0xffff_ffff_7fff_ffff, 0x7fff_ffff),
    (0xc7, 0, 63, LEAST, 0, MAX),
    (0xc7, 0, 64, LEAST, 0, LEAST),
    (0xc7, 0, 62, 0x4000_0000_0000_0000, 0, 1),
    (0xcf, 0, 0, 0xffff_ffff_ffff_fff0, 2, 0xffff_ffff_ffff_fffc),
    (0xcf, 0, 0, 0xffff_ffff_ffff_fff0, 66, 0xffff_ffff_ffff_fffc),
    # 32 bits: the high half of the result is zero
    (0x04, 0, 1, MAX, 0, 0),
    (0x04, 0, -1, 0x1_0000_0005, 0, 4),
    (0x0c, 0, 0, NARROW, 0xffff_ffff_0000_0002, 1),
    (0x14, 0, 1, 0xffff_ffff_0000_0000, 0, NARROW),
    (0x1c, 0, 0, 5, 0x7_0000_0003, 2),
    (0x24, 0, 2, 0x8000_0001, 0, 2),
    (0x2c, 0, 0, NARROW, NARROW, 1),
    (0x34, 0, 2, MAX, 0, 0x7fff_ffff),
    (0x34, 0, 0, MAX, 0, 0),
    (0x34, 0, -1, NARROW, 0, 1),
    (0x34, 1, -1, NARROW_LEAST, 0, NARROW_LEAST),
    (0x34, 1, 2, 0xffff_fff9, 0, 0xffff_fffd),
    (0x3c, 0, 0, 0x1_0000_0007, 0x5_0000_0000, 0),
    (0x3c, 0, 0, 100, 7, 14),
    (0x3c, 1, 0, 7, 0xffff_fffe, 0xffff_fffd),
    (0x44, 0, -1, 0xff00_0000_0000_0000, 0, NARROW),
    (0x4c, 0, 0, 0x1_0000_00f0, 0x0f, 0xff),
    (0x54, 0, -1, MAX, 0, NARROW),
    (0x5c, 0, 0, 0xf_0000_000c, 0xf_0000_000a, 8),
    (0x64, 0, 31, 1, 0, NARROW_LEAST),
    (0x64, 0, 32, 1, 0, 1),
    (0x64, 0, 33, 1, 0, 2),
    (0x64, 0, 1, 0x8000_0001, 0, 2),
    (0x6c, 0, 0, 3, 31, NARROW_LEAST),
    (0x6c, 0, 0, 3, 63, NARROW_LEAST),
    (0x6c, 0, 0, 3, 32, 3),
    (0x74, 0, 31, 0x1_8000_0000, 0, 1),
    (0x74, 0, 32, 0xffff_ffff_8000_0000, 0, NARROW_LEAST),
    (0x7c, 0, 0, MAX, 1, 0x7fff_ffff),
    (0x84, 0, 0, 1, 0, NARROW),
    (0x84, 0, 0, NARROW_LEAST, 0, NARROW_LEAST),
    (0x84, 0, 0, 0x1_0000_0000, 0, 0),
    (0x94, 0, 0, 0x1_0000_0007, 0, 7),
    (0x94, 0, 5, 0x1_0000_0011, 0, 2),
    (0x94, 1, 3, 0xffff_fff9, 0, NARROW),
    (0x94, 1, -1, NARROW_LEAST, 0, 0),
    (0x9c, 0, 0, 0x1_0000_0007, 0, 7),
    (0x9c, 0, 0, 0x1_0000_0007, 0x9_0000_0004, 3),
    (0x9c, 1, 0, 7, 0xffff_fffd, 1),
    (0x9c, 1, 0, 0xffff_ffff_ffff_fff9, 0, 0xffff_fff9),
    (0xa4, 0, -1, MAX, 0, 0),
    (0xac, 0, 0, 0x1_0000_000c, 0x2_0000_000a, 6),
    (0xb4, 0, -1, 0, 0, NARROW),
    (0xbc, 0, 0, 0, 0xffff_ffff_8000_0000, NARROW_LEAST),
    (0xbc, 8, 0, 0, 0x80, 0xffff_ff80),
    (0xbc, 16, 0, 0, 0x8000, 0xffff_8000),
    (0xbc, 16, 0, MAX, 0x1_7fff, 0x7fff),
    (0xc4, 0, 31, NARROW_LEAST, 0, NARROW),
    (0xc4, 0, 32, NARROW_LEAST, 0, NARROW_LEAST),
    (0xc4, 0, 30, 0xffff_ffff_4000_0000, 0, 1),
    (0xcc, 0, 0, 0xffff_fff0, 2, 0xffff_fffc),
    (0xcc, 0, 0, 0xffff_fff0, 34, 0xffff_fffc),
    # byte swaps
    (0xd4, 0, 16, 0x0102_0304_0506_0708, 0, 0x0708),
    (0xd4, 0, 32, 0x0102_0304_0506_0708, 0, 0x0506_0708),
    (0xd4, 0, 64, 0x0102_0304_0506_0708, 0, 0x0102_0304_0506_0708),
    (0xdc, 0, 16, 0x0102_0304_0506_0708, 0, 0x0807),
    (0xdc, 0, 32, 0x0102_0304_0506_0708, 0, 0x0807_0605),
    (0xdc, 0, 64, 0x0102_0304_0506_0708, 0, 0x0807_0605_0403_0201),
    (0xd7, 0, 16, 0x0102_0304_0506_0708, 0, 0x0807),
    (0xd7, 0, 32, 0x0102_0304_0506_0708, 0, 0x0807_0605),
    (0xd7, 0, 64, 0x0102_0304_0506_0708, 0, 0x0807_0605_0403_0201),
    (0xd4, 0, 16, MAX, 0, 0xffff),
    (0xdc, 0, 32, MAX, 0, NARROW),
]


def operations():
    for opcode, offset, imm, a, b, want in ARITHMETIC:
        # The operand is R1 where the opcode says so; a swap has none.
        src = 1 if opcode & 8 and opcode not in (0xD4, 0xDC, 0xD7) else 0
        slots = [wide(0, a), wide(1, b), fields(opcode, 0, src, offset, imm), EXIT]
        yield row(f"{opcode:02x} {offset} {imm} on {a:#x} and {b:#x}", code_of(slots), comes_to(want, 4), slots)


# The opcode and immediate of a conditional jump, R0 and R1 before it, and whether it is taken.
JUMPS = [
    # 64 bits
    (0x15, -1, MAX, 0, True),
    (0x15, -1, NARROW, 0, False),
    (0x1d, 0, LEAST, LEAST, True),
    (0x1d, 0, 5, 0x1_0000_0005, False),
    (0x25, -2, MAX, 0, True),
    (0x25, -1, 5, 0, False),
    (0x2d, 0, LEAST, 1, True),
    (0x2d, 0, 1, 1, False),
    (0x35, 5, 5, 0, True),
    (0x35, 5, 4, 0, False),
    (0x3d, 0, 1, 1, True),
    (0x3d, 0, 0, 1, False),
    (0x45, -1, LEAST, 0, True),
    (0x45, 7, 8, 0, False),
    (0x4d, 0, 6, 3, True),
    (0x4d, 0, 6, 9, False),
    (0x55, 5, 0x1_0000_0005, 0, True),
    (0x55, 5, 5, 0, False),
    (0x5d, 0, 1, 2, True),
    (0x5d, 0, MAX, MAX, False),
    (0x65, -2, MAX, 0, True),
    (0x65, 0, LEAST, 0, False),
    (0x6d, 0, 0, MAX, True),
    (0x6d, 0, LEAST, 1, False),
    (0x75, -1, MAX, 0, True),
    (0x75, -1, LEAST, 0, False),
    (0x7d, 0, MAX, MAX, True),
    (0x7d, 0, LEAST, 0, False),
    (0xa5, -1, 5, 0, True),
    (0xa5, 5, 5, 0, False),
    (0xad, 0, 1, LEAST, True),
    (0xad, 0, 1, 1, False),
    (0xb5, 5, 5, 0, True),
    (0xb5, 5, 6, 0, False),
    (0xbd, 0, 1, 1, True),
    (0xbd, 0, LEAST, 1, False),
    (0xc5, 0, LEAST, 0, True),
    (0xc5, -1, 0, 0, False),
    (0xcd, 0, LEAST, 1, True),
    (0xcd, 0, 1, 1, False),
    (0xd5, -1, MAX, 0, True),
    (0xd5, 0, 0x7fff_ffff_ffff_ffff, 0, False),
    (0xdd, 0, LEAST, LEAST, True),
    (0xdd, 0, 0, MAX, False),
    # 32 bits: the high halves are not compared
    (0x16, 5, 0x7_0000_0005, 0, True),
    (0x16, 5, 6, 0, False),
    (0x1e, 0, 0x1_0000_0005, 0x2_0000_0005, True),
    (0x1e, 0, 5, 6, False),
    (0x26, 1, NARROW, 0, True),
    (0x26, 0, 0x1_0000_0000, 0, False),
    (0x2e, 0, NARROW_LEAST, 1, True),
    (0x2e, 0, 0x1_0000_0000, 0, False),
    (0x36, 5, 0x1_0000_0005, 0, True),
    (0x36, 5, 0x1_0000_0004, 0, False),
    (0x3e, 0, 0, 0x1_0000_0000, True),
    (0x3e, 0, 0x1_0000_0000, 1, False),
    (0x46, -1, NARROW_LEAST, 0, True),
    (0x46, -1, 0x1_0000_0000, 0, False),
    (0x4e, 0, 0xf_0000_0006, 0xf_0000_0003, True),
    (0x4e, 0, 0xf_0000_0006, 0xf_0000_0009, False),
    (0x56, 5, 4, 0, True),
    (0x56, 5, 0x1_0000_0005, 0, False),
    (0x5e, 0, 1, 2, True),
    (0x5e, 0, 0x1_0000_0005, 0x2_0000_0005, False),
    (0x66, -1, 0x7fff_ffff, 0, True),
    (0x66, 0, NARROW_LEAST, 0, False),
    (0x6e, 0, 0, NARROW, True),
    (0x6e, 0, NARROW_LEAST, 1, False),
    (0x76, -1, NARROW, 0, True),
    (0x76, -1, NARROW_LEAST, 0, False),
    (0x7e, 0, NARROW, 0x1_ffff_ffff, True),
    (0x7e, 0, NARROW_LEAST, 0, False),
    (0xa6, 2, 0xf_0000_0001, 0, True),
    (0xa6, -1, NARROW, 0, False),
    (0xae, 0, 0xf_0000_0001, 2, True),
    (0xae, 0, 2, 0x1_0000_0001, False),
    (0xb6, 2, 0xf_0000_0002, 0, True),
    (0xb6, 2, 3, 0, False),
    (0xbe, 0, 0x1_0000_0001, 1, True),
    (0xbe, 0, 2, 1, False),
    (0xc6, 0, NARROW_LEAST, 0, True),
    (0xc6, -1, 0x7fff_ffff, 0, False),
    (0xce, 0, NARROW_LEAST, 1, True),
    (0xce, 0, 1, 1, False),
    (0xd6, -1, NARROW, 0, True),
    (0xd6, -1, 0, 0, False),
    (0xde, 0, NARROW_LEAST, NARROW_LEAST, True),
    (0xde, 0, 0, NARROW, False),
]


def jumps():
    for opcode, imm, a, b, taken in JUMPS:
        # The jump passes over the two slots that answer 0.
        src = 1 if opcode & 8 else 0
        slots = [wide(0, a), wide(1, b), fields(opcode, 0, src, 2, imm), put(0, 0), EXIT, put(0, 1), EXIT]
        yield row(f"{opcode:02x} {imm} on {a:#x} and {b:#x}", code_of(slots), comes_to(int(taken), 5), slots)


# Loads and stores

INPUT = bytes([0x01, 0x82, 0x83, 0x84, 0x85, 0x86, 0x87, 0x88, 0xFF])

# The opcode and offset of a load from the input, and what it gives.
LOADS = [
    (0x71, 0, 0x01),
    (0x71, 8, 0xff),
    (0x69, 0, 0x8201),
    (0x61, 1, 0x8584_8382),
    (0x79, 0, 0x8887_8685_8483_8201),
    (0x79, 1, 0xff88_8786_8584_8382),
    (0x91, 0, 0x01),
    (0x91, 1, 0xffff_ffff_ffff_ff82),
    (0x89, 0, 0xffff_ffff_ffff_8201),
    (0x89, 7, 0xffff_ffff_ffff_ff88),
    (0x81, 1, 0xffff_ffff_8584_8382),
    (0x81, 5, 0xffff_ffff_ff88_8786),
]

# The opcode, offset and immediate of a store of R2 to the output, and the bytes there after it.
STORES = [
    (0x62, 2, 0x0403_0201, [0, 0, 1, 2, 3, 4, 0, 0]),
    (0x6a, 0, 0x0403_0201, [1, 2, 0, 0, 0, 0, 0, 0]),
    (0x72, 7, 0x1ff, [0, 0, 0, 0, 0, 0, 0, 0xff]),
    (
        0x7a,
        0,
        -2,
        [0xfe, 0xff, 0xff, 0xff, 0xff, 0xff, 0xff, 0xff],
    ),
    (0x7a, 0, 1, [1, 0, 0, 0, 0, 0, 0, 0]),
    (0x63, 4, 0, [0, 0, 0, 0, 1, 2, 3, 4]),
    (0x6b, 0, 0, [1, 2, 0, 0, 0, 0, 0, 0]),
    (0x73, 3, 0, [0, 0, 0, 1, 0, 0, 0, 0]),
    (0x7b, 0, 0, [1, 2, 3, 4, 5, 6, 7, 8]),
]


def accesses():
    for opcode, offset, want in LOADS:
        slots = [fields(opcode, 0, 1, offset, 0), EXIT]
        yield row(f"{opcode:02x} at {offset}", code_of(slots), comes_to(want, 2), slots, INPUT)
    for opcode, offset, imm, want in STORES:
        src = 2 if opcode % 8 == 3 else 0
        slots = [wide(2, 0x0807_0605_0403_0201), fields(opcode, 3, src, offset, imm), put(0, 0), EXIT]
        yield row(f"{opcode:02x} at {offset} of {imm}", code_of(slots), comes_to(0, 4, want), slots)


# Programs that are run

# Raw programs.
RUN_RAW = [
    (
        "exit_zero",
        [put(0, 0), jump(0), jump(0), jump(0), EXIT],
        [],
        (0, 5, []),
    ),
    (
        "division_by_zero",
        [put(0, 7), put(6, 0), fields(0x3f, 0, 6, 0, 0), EXIT],
        [],
        (0, 4, []),
    ),
    (
        "modulo_by_zero",
        [put(0, 7), put(6, 0), fields(0x9f, 0, 6, 0, 0), EXIT],
        [],
        (7, 4, []),
    ),
    (
        "modulo_by_zero_in_32_bits",
        [
            wide(0, 0x1_0000_0007),
            put(6, 0),
            fields(0x9c, 0, 6, 0, 0),
            EXIT,
        ],
        [],
        (7, 4, []),
    ),
    (
        "unsigned_division_of_the_high_bit",
        [wide(0, LEAST), fields(0x37, 0, 0, 1, -1), EXIT],
        [],
        (LEAST, 3, []),
    ),
    (
        "stack_bounds",
        [fields(0x7a, 10, 0, -512, 0), put(0, 0), EXIT],
        [],
        (0, 3, []),
    ),
    (
        "sign_extended_immediate",
        [fields(0xb4, 0, 0, 0, -1), EXIT],
        [],
        (NARROW, 2, []),
    ),
    (
        "sign_extended_immediate of 64",
        [put(0, -1), EXIT],
        [],
        (MAX, 2, []),
    ),
    (
        "signed_modulo",
        [put(0, -7), fields(0x97, 0, 0, 1, 3), EXIT],
        [],
        (MAX, 3, []),
    ),
    (
        "swap_to_big_endian",
        [put(0, 0x1234), fields(0xdc, 0, 0, 0, 16), EXIT],
        [],
        (0x3412, 3, []),
    ),
    (
        "raw_text_section",
        [copied(0, 2), raised(0, 1), EXIT],
        [1, 2, 3],
        (4, 3, []),
    ),
    (
        "jump not taken",
        [
            put(0, 0),
            fields(0x15, 2, 0, 1, 0),
            raised(0, 5),
            raised(0, 1),
            EXIT,
        ],
        [9],
        (6, 5, []),
    ),
    (
        "jump taken",
        [
            put(0, 0),
            fields(0x15, 2, 0, 1, 0),
            raised(0, 5),
            raised(0, 1),
            EXIT,
        ],
        [],
        (1, 4, []),
    ),
    (
        "byte to output",
        [put(0, 0), load_byte(6, 1, 0), fields(0x73, 3, 6, 1, 0), EXIT],
        [7],
        (0, 4, [0, 7]),
    ),
]

# Reads the byte at the place that the input's first eight bytes name, if that is 255 at most.
BOUND = [put(0, 0), fields(0x79, 6, 1, 0, 0), fields(0x25, 6, 0, 2, 0xFF), added(1, 6), load_byte(0, 1, 0), EXIT]

# Programs with an input of 256 bytes and no output.
RUN_BOUNDED = [
    (
        "indexed_byte",
        [
            copied(6, 2),
            fields(0x57, 6, 0, 0, 0xff),
            added(1, 6),
            load_byte(0, 1, 0),
            EXIT,
        ],
        [42] * 256,
        (42, 5, []),
    ),
    (
        "jmp64 not taken",
        BOUND,
        [3, 0, 0, 0, 0, 0, 0, 0],
        (0, 6, []),
    ),
    ("jmp64 taken", BOUND, [3, 1, 0, 0, 0, 0, 0, 0], (0, 4, [])),
]

# Programs that call, with an input of 16 bytes and an output of 8.
RUN_CALLS = [
    (
        "copy",
        [copied(2, 1), copied(1, 3), put(3, 4), call(1), EXIT],
        [1, 2, 3, 4],
        (0, 5, [1, 2, 3, 4]),
    ),
    (
        "copy of nothing to the end",
        [
            copied(2, 1),
            copied(1, 3),
            raised(1, 8),
            put(3, 0),
            call(1),
            EXIT,
        ],
        [1, 2, 3, 4],
        (0, 6, []),
    ),
    (
        "fill and same",
        [
            copied(1, 3),
            copied(6, 3),
            put(2, 0x1ff),
            put(3, 3),
            call(2),
            copied(1, 6),
            copied(2, 6),
            raised(2, 1),
            put(3, 2),
            call(3),
            EXIT,
        ],
        [],
        (1, 11, [255, 255, 255]),
    ),
    (
        "same of nothing at the end of the stack",
        [copied(2, 10), put(3, 0), call(3), EXIT],
        [],
        (1, 4, []),
    ),
    (
        "order of two Reads",
        [
            put(2, 2),
            copied(3, 1),
            raised(3, 2),
            put(4, 2),
            call(16),
            EXIT,
        ],
        b"acab",
        (2, 6, []),
    ),
    (
        "find the second Read",
        [
            put(2, 4),
            copied(3, 1),
            raised(3, 2),
            put(4, 2),
            call(17),
            EXIT,
        ],
        b"xyab",
        (3, 6, []),
    ),
    (
        "newest of no layout",
        [call(19), EXIT],
        [0] * 16,
        (64, 2, []),
    ),
    ("decimal", [call(18), EXIT], b"123", (123, 2, [])),
    ("decimal of nothing", [call(18), EXIT], b"", (MAX, 2, [])),
    (
        "helper_indexes_output",
        [
            copied(6, 3),
            copied(1, 2),
            call(64),
            added(6, 0),
            store_byte(6, 0, 1),
            EXIT,
        ],
        [0, 0, 0],
        (3, 6, [0, 0, 0, 1]),
    ),
]

# Raw programs, and what they come to or why they are refused.
COMMAND_RUNS = [
    ("exit_zero", [CLEAR, EXIT], b"", comes_to(0, 2)),
    ("division_and_modulo_by_zero: division", [put(0, 7), put(6, 0), fields(0x3f, 0, 6, 0, 0), EXIT], b"", comes_to(0, 4)),
    ("division_and_modulo_by_zero: modulo", [put(0, 7), put(6, 0), fields(0x9f, 0, 6, 0, 0), EXIT], b"", comes_to(7, 4)),
    ("modulo_by_zero_in_32_bits", [wide(0, 0x100000007), put(6, 0), fields(0x9c, 0, 6, 0, 0), EXIT], b"", comes_to(7, 4)),
    ("unsigned_division_of_the_high_bit", [wide(0, 0x8000000000000000), fields(0x37, 0, 0, 1, -1), EXIT], b"", comes_to(LEAST, 3)),
    ("sign_extended_immediate: 32 bits", [fields(0xb4, 0, 0, 0, -1), EXIT], b"", comes_to(NARROW, 2)),
    ("sign_extended_immediate: 64 bits", [put(0, -1), EXIT], b"", comes_to(MAX, 2)),
    ("signed_modulo", [put(0, -7), fields(0x97, 0, 0, 1, 3), EXIT], b"", comes_to(MAX, 3)),
    ("swap_to_big_endian", [put(0, 4660), fields(0xdc, 0, 0, 0, 16), EXIT], b"", comes_to(13330, 3)),
    ("stack_bounds", [fields(0x7a, 10, 0, -512, 0), CLEAR, EXIT], b"", comes_to(0, 3)),
    ("raw_text_section", [copied(0, 2), raised(0, 1), EXIT], b"abc", comes_to(4, 3)),
    ("an output", [load_byte(0, 1, 0), fields(0x73, 3, 0, 1, 0), EXIT], bytes.fromhex("ab"), comes_to(171, 3, bytes.fromhex("00ab"))),
    ("whole windows", [load_byte(0, 1, 4095), copied(0, 4), EXIT], b"", comes_to(4096, 3)),
    ("cut_wide", [fields(0x18, 0, 0, 0, 0)], b"", "refused D7 0\n"),
    ("swap_to_big_endian: no such width", [put(0, 4660), fields(0xdc, 0, 0, 0, 17), EXIT], b"", "refused D9 1\n"),
    ("an empty file", [], b"", "refused D2 0\n"),
    ("an atomic instruction", [fields(0xc3, 0, 0, 0, 0)], b"", "refused D8 0\n"),
    ("unset_answer", [EXIT], b"", refused(20, 0)),
    ("no exit", [CLEAR], b"", refused(13, 0)),
    ("a jump before the code", [jump(-5)], b"", refused(10, 0)),
    ("jump_targets: back", [jump(-1), EXIT], b"", refused(12, 0)),
    ("jump_targets: into a wide instruction", [CLEAR, jump(1), wide(0, 0x0), EXIT], b"", refused(11, 1)),
    ("jump_targets: the lowest slot first", [jump(-1), jump(1), wide(0, 0x0), EXIT], b"", refused(12, 0)),
    ("stack_bounds: below the stack", [fields(0x7a, 10, 0, -513, 0), CLEAR, EXIT], b"", refused(24, 0)),
    ("stack_bounds: past its end", [fields(0x7a, 10, 0, -4, 0), CLEAR, EXIT], b"", refused(24, 0)),
    ("a call of no helper", [call(9), EXIT], b"", refused(27, 0)),
]


def runs():
    yield from run_rows(RUN_RAW)
    yield from run_rows(RUN_BOUNDED, (256, 0))
    yield from run_rows(RUN_CALLS, (16, 8))
    for name, slots, given, told in COMMAND_RUNS:
        yield row(name, code_of(slots), told, slots, given)


# Programs that call helpers, with windows of these lengths.
HELPER_CALLS = [
    ("copy of 4 bytes", (16, 8), [copied(2, 1), copied(1, 3), put(3, 4), call(1), EXIT], bytes.fromhex("01020304"), comes_to(0, 5, bytes.fromhex("01020304"))),
    ("copy of 9 bytes", (16, 8), [copied(2, 1), copied(1, 3), put(3, 9), call(1), EXIT], b"", refused(28, 3)),
    ("a load after the copy", (16, 8), [copied(2, 1), copied(1, 3), put(3, 4), call(1), load_byte(0, 1, 0), EXIT], b"", refused(20, 4)),
    ("decimal", (16, 0), [call(18), EXIT], b"123", comes_to(123, 2)),
    ("decimal of nothing", (16, 0), [call(18), EXIT], b"", comes_to(MAX, 2)),
    ("helper_indexes_output: 64", (16, 8), [copied(6, 3), copied(1, 2), call(64), added(6, 0), store_byte(6, 0, 1), EXIT], bytes.fromhex("000000"), comes_to(3, 6, bytes.fromhex("00000001"))),
    ("helper_indexes_output: 65", (16, 8), [copied(6, 3), copied(1, 2), call(65), added(6, 0), store_byte(6, 0, 1), EXIT], bytes.fromhex("000000"), refused(24, 4)),
    ("64 of 15", (16, 0), [put(1, 15), call(64), EXIT], b"", comes_to(7, 3)),
    ("64 of 8", (16, 0), [put(1, 8), call(64), EXIT], b"", comes_to(0, 3)),
    ("64 of the greatest number", (16, 0), [put(1, -1), call(64), EXIT], b"", comes_to(7, 3)),
    ("65 of 17", (16, 0), [put(1, 17), call(65), EXIT], b"", comes_to(8, 3)),
    ("65 of 9", (16, 0), [put(1, 9), call(65), EXIT], b"", comes_to(0, 3)),
    ("65 of the greatest number", (16, 0), [put(1, -1), call(65), EXIT], b"", comes_to(6, 3)),
    ("order of abcabd", (16, 0), [copied(3, 1), raised(3, 3), put(2, 3), put(4, 3), call(16), EXIT], b"abcabd", comes_to(0, 6)),
    ("order of abcabc", (16, 0), [copied(3, 1), raised(3, 3), put(2, 3), put(4, 3), call(16), EXIT], b"abcabc", comes_to(1, 6)),
    ("order of abdabc", (16, 0), [copied(3, 1), raised(3, 3), put(2, 3), put(4, 3), call(16), EXIT], b"abdabc", comes_to(2, 6)),
    ("order of bytes past 127", (16, 0), [copied(3, 1), raised(3, 3), put(2, 3), put(4, 3), call(16), EXIT], bytes.fromhex("61628061627f"), comes_to(2, 6)),
    ("order of `` and `lo`", (16, 0), [fields(0x6a, 10, 0, -8, 28524), copied(3, 10), raised(3, -8), put(4, 2), call(16), EXIT], b"", comes_to(0, 6)),
    ("order of `l` and `lo`", (16, 0), [fields(0x6a, 10, 0, -8, 28524), copied(3, 10), raised(3, -8), put(4, 2), call(16), EXIT], b"l", comes_to(0, 6)),
    ("order of `lo` and `lo`", (16, 0), [fields(0x6a, 10, 0, -8, 28524), copied(3, 10), raised(3, -8), put(4, 2), call(16), EXIT], b"lo", comes_to(1, 6)),
    ("order of `lol` and `lo`", (16, 0), [fields(0x6a, 10, 0, -8, 28524), copied(3, 10), raised(3, -8), put(4, 2), call(16), EXIT], b"lol", comes_to(2, 6)),
    ("order of `m` and `lo`", (16, 0), [fields(0x6a, 10, 0, -8, 28524), copied(3, 10), raised(3, -8), put(4, 2), call(16), EXIT], b"m", comes_to(2, 6)),
    ("find `lo` in `hello`", (16, 0), [fields(0x6a, 10, 0, -8, 28524), copied(3, 10), raised(3, -8), put(4, 2), call(17), EXIT], b"hello", comes_to(4, 6)),
    ("find `lo` in `lolo`", (16, 0), [fields(0x6a, 10, 0, -8, 28524), copied(3, 10), raised(3, -8), put(4, 2), call(17), EXIT], b"lolo", comes_to(1, 6)),
    ("find `lo` in `l`", (16, 0), [fields(0x6a, 10, 0, -8, 28524), copied(3, 10), raised(3, -8), put(4, 2), call(17), EXIT], b"l", comes_to(0, 6)),
    ("find `lo` in ``", (16, 0), [fields(0x6a, 10, 0, -8, 28524), copied(3, 10), raised(3, -8), put(4, 2), call(17), EXIT], b"", comes_to(0, 6)),
    ("find `lo` in `help`", (16, 0), [fields(0x6a, 10, 0, -8, 28524), copied(3, 10), raised(3, -8), put(4, 2), call(17), EXIT], b"help", comes_to(0, 6)),
    ("find nothing in `hello`", (16, 0), [copied(3, 10), raised(3, -8), put(4, 0), call(17), EXIT], b"hello", comes_to(1, 5)),
    ("find nothing in nothing", (16, 0), [copied(3, 10), raised(3, -8), put(4, 0), call(17), EXIT], b"", comes_to(1, 5)),
    ("decimal of 19 digits", (32, 0), [call(18), EXIT], b"9999999999999999999", comes_to(9999999999999999999, 2)),
    ("decimal of 20 digits", (32, 0), [call(18), EXIT], b"00000000000000000001", comes_to(MAX, 2)),
    ("decimal of zeros first", (32, 0), [call(18), EXIT], b"007", comes_to(7, 2)),
    ("decimal of a letter", (32, 0), [call(18), EXIT], b"12a", comes_to(MAX, 2)),
    ("newest of two siblings", (128, 0), [call(19), EXIT], bytes.fromhex("020000000200000042000000000000000000000001000000010000000000000040000000010000000100000001000000010000000000000041000000010000006162"), comes_to(1, 2)),
    ("newest beside a new content", (128, 0), [call(19), EXIT], bytes.fromhex("01000000030000005b00000000000000000000000100000000000000000000005800000001000000000000000100000003000000000000005900000001000000010000000100000002000000000000005a00000001000000636162"), comes_to(1, 2)),
    ("newest of a cut layout", (128, 0), [put(2, 63), call(19), EXIT], bytes.fromhex("020000000200000042000000000000000000000001000000010000000000000040000000010000000100000001000000010000000000000041000000010000006162"), comes_to(64, 3)),
    ("newest of no layout", (16, 0), [call(19), EXIT], b"abc", comes_to(64, 2)),
    ("newest of nothing", (16, 0), [call(19), EXIT], b"", comes_to(64, 2)),
]


# Two texts, and their order: 0 where the first is before the second, 1 where they are equal, 2 where it is behind it.
ORDERS = [
    (b"", b"", 1),
    (b"", b"a", 0),
    (b"a", b"", 2),
    (b"a", b"b", 0),
    (b"b", b"a", 2),
    (b"a", b"ab", 0),
    (b"ab", b"a", 2),
    (b"abc", b"abd", 0),
    (b"abc", b"abc", 1),
    (b"\x80", b"\x7f\xff", 2),
]

# A text, another, and one more than the first place of the other in it, 0 where it is at none.
PLACES_OF_TEXTS = [
    (b"", b"", 1),
    (b"", b"a", 0),
    (b"hello", b"", 1),
    (b"hello", b"h", 1),
    (b"hello", b"l", 3),
    (b"hello", b"o", 5),
    (b"hello", b"hello", 1),
    (b"hello", b"hello!", 0),
    (b"abab", b"ba", 2),
    (b"aaab", b"aab", 2),
    (b"hello", b"lol", 0),
]

# A text, and the number that it spells: 1 to 19 digits.
NUMBERS_OF_TEXTS = [
    (b"0", 0),
    (b"0000000000000000000", 0),
    (b"0000000000000000019", 19),
    (b"10000000000000000000", MAX),
    (b"-1", MAX),
    (b"+1", MAX),
    (b" 1", MAX),
    (b"1:", MAX),
]

TWO_SIBLINGS = [(0, 1), (0, 2)]

# How many rows a layout says that it has, the vnode and the counter of each row that it has, and the row of the greatest counter, of
# these of the greatest vnode, of these the first; 64 where there is none, or where it has fewer rows than it says, or says more than 64.
NEWEST = [
    (0, [], 64),
    (1, [(1, 5)], 0),
    (2, [(0, 1), (1, 1)], 1),
    (2, [(1, 1), (0, 1)], 0),
    (2, [(0, 2), (5, 1)], 0),
    (2, [(5, 1), (0, 2)], 1),
    (1, [(9, 0)], 64),
    (3, [(9, 0), (1, 1), (0, 3)], 2),
    (3, [(0, 3), (9, 0), (1, 1)], 0),
    (2, [(3, 4), (3, 4)], 0),
    (2, [(0, 256), (0, 255)], 0),
    (2, [(NARROW, 1), (0, MAX)], 1),
    (3, TWO_SIBLINGS, 64),
    (1, TWO_SIBLINGS, 0),
    (64, [(0, 7)] * 64, 0),
    (65, [(0, 7)] * 65, 64),
]


def layout(count, rows):
    """A resolver's input that says it has so many rows, and has these; no values."""
    head = struct.pack("<IIII", 2, count, 16 + 24 * len(rows), 0)
    return head + b"".join(struct.pack("<IIQII", vnode, 1, n, 0, 0) for vnode, n in rows)


def texts(number, rows):
    """Rows of a helper of two texts, which stand one behind the other in the input."""
    for first, second, want in rows:
        at = len(first)
        slots = [put(2, at), copied(3, 1), raised(3, at), put(4, len(second)), call(number), EXIT]
        yield row(f"{number} of {first} and {second}", image(16, 0, slots), comes_to(want, 6), slots, first + second)


def helpers():
    for name, windows, slots, given, told in HELPER_CALLS:
        yield row(name, image(*windows, slots), told, slots, given)
    yield from texts(16, ORDERS)
    yield from texts(17, PLACES_OF_TEXTS)
    spelled = [call(18), EXIT]
    for text, want in NUMBERS_OF_TEXTS:
        yield row(f"18 of {text}", image(32, 0, spelled), comes_to(want, 2), spelled, text)
    newest = [call(19), EXIT]
    for count, rows, want in NEWEST:
        name = f"newest of {len(rows)} rows as {count}"
        yield row(name, image(2048, 0, newest), comes_to(want, 2), newest, layout(count, rows))
    # The rows end behind the 64th byte.
    for length in range(65):
        slots = [put(2, length), call(19), EXIT]
        told = comes_to(1 if length == 64 else 64, 3)
        yield row(f"newest of {length} bytes", image(64, 0, slots), told, slots, layout(2, TWO_SIBLINGS))


# Inputs of a window's length, and longer ones

EXIT_ZERO = [CLEAR, EXIT]
INDEXED = [copied(6, 2), fields(0x57, 6, 0, 0, 255), added(1, 6), load_byte(0, 1, 0), EXIT]
INDEXED_TWO = [copied(6, 2), fields(0x57, 6, 0, 0, 255), added(1, 6), fields(0x69, 0, 1, 0, 0), EXIT]
LONG = "refused input\n"


def inputs():
    yield row("a byte too many", code_of(EXIT_ZERO), LONG, EXIT_ZERO, bytes(4097))
    yield row("a whole window", code_of(EXIT_ZERO), comes_to(0, 2), EXIT_ZERO, bytes(4096))
    # The program's refusal is told before the input's.
    yield row("no code", b"", "refused D2 0\n", (), bytes(4097))
    yield row("no answer", code_of([EXIT]), refused(20, 0), [EXIT], bytes(4097))
    yield row("seven bytes", code_of([EXIT])[:7], "refused D1 0\n")
    yield row("indexed_byte: the last byte", image(256, 0, INDEXED), comes_to(42, 5), INDEXED, [42] * 256)
    yield row("indexed_byte: a byte too many", image(256, 0, INDEXED), LONG, INDEXED, bytes(257))
    # Of two bytes the second may lie past the window.
    yield row("indexed_byte: two bytes", image(256, 0, INDEXED_TWO), refused(24, 3), INDEXED_TWO, bytes(257))


# The two tables of kinds


def store(base, offset, src):
    return named(f"dword r{base}{offset:+} = r{src}", 0x7B, base, src, offset, 0)


def store_number(base, offset, n):
    return named(f"dword r{base}{offset:+} = {n}", 0x7A, base, 0, offset, n)


def load(dst, base, offset):
    return named(f"r{dst} = dword r{base}{offset:+}", 0x79, dst, base, offset, 0)


def masked(dst, n):
    return named(f"r{dst} &= {n}", 0x57, dst, 0, 0, n)


def taken_from(dst, src):
    return named(f"r{dst} -= r{src}", 0x1F, dst, src, 0, 0)


# Goes round the next slot if the input is empty.
ROUND_IF_EMPTY = named("if r2 == 0 goto +1", 0x15, 2, 0, 1, 0)

# A pointer to the input in the cell at -8, and its return.
SPILL = store(10, -8, 1)
RELOAD = load(6, 10, -8)

# The byte of the input that the cell at -8 names.
INDEX = [RELOAD, added(1, 6), load_byte(0, 1, 0), EXIT]

# The sixth byte of what the cell at -8 points to.
FIFTH = [RELOAD, load_byte(0, 6, 5), EXIT]

# R7 is the stack's end, or 8 bytes below it.
ONE_OF_TWO = [copied(6, 2), masked(6, 8), copied(7, 10), taken_from(7, 6)]

# Each byte of the input is its place.
PLACES = bytes(range(256))

# Programs with an input of 256 bytes and an output of 8, their input, and what they come to by the second table and by the first.
# A cell is one of the 64 whole words of the stack.
CELLS = [
    # what a cell holds
    ("a cell at the start", INDEX, PLACES, comes_to(0, 4), refused(23, 1)),
    ("a number of a range", [load_byte(6, 1, 9), store(10, -8, 6), *INDEX], PLACES, comes_to(9, 6), refused(23, 3)),
    ("one number", [store_number(10, -8, 9), *INDEX], PLACES, comes_to(9, 5), refused(23, 2)),
    ("a pointer to the input", [SPILL, *FIFTH], PLACES, comes_to(5, 4), refused(26, 0)),
    ("a pointer that was moved", [raised(1, 4), SPILL, *FIFTH], PLACES, comes_to(9, 5), refused(26, 1)),
    ("a pointer to the output", [store(10, -8, 3), RELOAD, store_byte(6, 1, 7), CLEAR, EXIT], PLACES, comes_to(0, 5, [0, 7]), refused(26, 0)),
    ("a pointer to the stack", [store(10, -512, 10), load(6, 10, -512), store_number(6, -16, 5), load(0, 10, -16), EXIT], PLACES, comes_to(5, 5), refused(26, 0)),
    ("the last of two stores", [SPILL, store_number(10, -8, 9), *INDEX], PLACES, comes_to(9, 6), refused(26, 0)),
    # where a pointer may not be stored
    ("a pointer across two cells", [store(10, -12, 1), CLEAR, EXIT], PLACES, refused(26, 0), refused(26, 0)),
    ("four bytes of a pointer", [fields(0x63, 10, 1, -8, 0), CLEAR, EXIT], PLACES, refused(26, 0), refused(26, 0)),
    ("a pointer stored to the output", [store(3, 0, 1), CLEAR, EXIT], PLACES, refused(26, 0), refused(26, 0)),
    ("a pointer in one of two cells", [*ONE_OF_TWO, store(7, -8, 1), CLEAR, EXIT], PLACES, refused(26, 4), refused(26, 4)),
    ("a pointer below the stack", [store(10, -520, 1), CLEAR, EXIT], PLACES, refused(24, 0), refused(24, 0)),
    ("a pointer stored to the input", [store(1, 0, 1), CLEAR, EXIT], PLACES, refused(25, 0), refused(25, 0)),
    ("an unset register stored", [store(10, -8, 5), CLEAR, EXIT], PLACES, refused(20, 0), refused(20, 0)),
    # reads of a cell that holds a pointer
    ("a pointer's last byte", [SPILL, load_byte(0, 10, -1), EXIT], PLACES, refused(30, 1), refused(26, 0)),
    ("a pointer's last byte with its sign", [SPILL, fields(0x91, 0, 10, -1, 0), EXIT], PLACES, refused(30, 1), refused(26, 0)),
    ("half a pointer", [SPILL, fields(0x61, 0, 10, -8, 0), EXIT], PLACES, refused(30, 1), refused(26, 0)),
    ("across a pointer and the cell before", [SPILL, load(0, 10, -12), EXIT], PLACES, refused(30, 1), refused(26, 0)),
    ("across a pointer and the cell behind", [store(10, -16, 1), load(0, 10, -12), EXIT], PLACES, refused(30, 1), refused(26, 0)),
    ("one of two cells, a pointer in one", [SPILL, *ONE_OF_TWO, load(0, 7, -8), EXIT], PLACES, refused(30, 5), refused(26, 0)),
    ("the byte before a pointer", [SPILL, load_byte(0, 10, -9), EXIT], PLACES, comes_to(0, 3), refused(26, 0)),
    ("the byte behind a pointer", [store(10, -16, 1), load_byte(0, 10, -8), EXIT], PLACES, comes_to(0, 3), refused(26, 0)),
    ("past a pointer and the stack", [SPILL, load(0, 10, -4), EXIT], PLACES, refused(24, 1), refused(26, 0)),
    # reads of numbers
    ("a number's second byte", [store_number(10, -8, 0x0201), load_byte(0, 10, -7), EXIT], PLACES, comes_to(2, 3), comes_to(2, 3)),
    ("one of two cells", [*ONE_OF_TWO, load(0, 7, -8), EXIT], PLACES, comes_to(0, 6), comes_to(0, 6)),
    ("across two numbers", [store_number(10, -8, 9), load(6, 10, -12), added(1, 6), EXIT], PLACES, refused(23, 2), refused(23, 2)),
    # stores that touch a cell
    ("a byte into a pointer", [SPILL, store_byte(10, -1, 1), RELOAD, CLEAR, EXIT], PLACES, refused(30, 2), refused(26, 0)),
    ("a byte before a pointer", [SPILL, store_byte(10, -9, 1), *FIFTH], PLACES, comes_to(5, 5), refused(26, 0)),
    ("a byte behind a pointer", [store(10, -16, 1), store_byte(10, -8, 1), load(6, 10, -16), load_byte(0, 6, 5), EXIT], PLACES, comes_to(5, 5), refused(26, 0)),
    ("a number across a pointer and the cell before", [SPILL, store_number(10, -12, 0), RELOAD, CLEAR, EXIT], PLACES, refused(30, 2), refused(26, 0)),
    ("a number across a pointer and the cell behind", [store(10, -16, 1), store_number(10, -12, 0), load(6, 10, -16), CLEAR, EXIT], PLACES, refused(30, 2), refused(26, 0)),
    ("a byte into one of two cells, a pointer in one", [SPILL, *ONE_OF_TWO, store_byte(7, -8, 1), RELOAD, CLEAR, EXIT], PLACES, refused(30, 6), refused(26, 0)),
    ("a byte into one of two cells before a pointer", [SPILL, *ONE_OF_TWO, store_byte(7, -9, 1), *FIFTH], PLACES, comes_to(5, 9), refused(26, 0)),
    ("a byte into a number", [store_number(10, -8, 9), store_byte(10, -8, 1), *INDEX], PLACES, refused(23, 3), refused(23, 3)),
    ("a byte into a number that is masked then", [store_number(10, -8, 9), store_byte(10, -8, 1), RELOAD, masked(6, 255), *INDEX[1:]], PLACES, comes_to(1, 7), comes_to(1, 7)),
    ("a pointer's cell, spoiled and written anew", [SPILL, store_byte(10, -8, 0), store_number(10, -8, 9), *INDEX], PLACES, comes_to(9, 7), refused(26, 0)),
    # where ways meet
    ("a pointer on one way", [ROUND_IF_EMPTY, SPILL, RELOAD, CLEAR, EXIT], PLACES, refused(30, 2), refused(26, 1)),
    ("pointers into two windows", [SPILL, ROUND_IF_EMPTY, store(10, -8, 3), RELOAD, CLEAR, EXIT], PLACES, refused(30, 3), refused(26, 0)),
    ("two pointers into one window", [SPILL, raised(1, 3), ROUND_IF_EMPTY, SPILL, RELOAD, load_byte(0, 6, 252), EXIT], PLACES, comes_to(255, 7), refused(26, 0)),
    ("two pointers, a byte too far", [SPILL, raised(1, 3), ROUND_IF_EMPTY, SPILL, RELOAD, load_byte(0, 6, 253), EXIT], PLACES, refused(24, 5), refused(26, 0)),
    ("two numbers", [store_number(10, -8, 3), ROUND_IF_EMPTY, store_number(10, -8, 7), RELOAD, added(1, 6), load_byte(0, 1, 248), EXIT], PLACES, comes_to(255, 7), refused(23, 4)),
    ("two numbers, a byte too far", [store_number(10, -8, 3), ROUND_IF_EMPTY, store_number(10, -8, 7), RELOAD, added(1, 6), load_byte(0, 1, 249), EXIT], PLACES, refused(24, 5), refused(23, 4)),
    # calls that read
    ("a copy of a pointer", [SPILL, copied(1, 3), copied(2, 10), raised(2, -8), put(3, 8), call(1), EXIT], PLACES, refused(30, 5), refused(26, 0)),
    ("a copy up to a pointer's first byte", [SPILL, copied(1, 3), copied(2, 10), raised(2, -15), put(3, 8), call(1), EXIT], PLACES, refused(30, 5), refused(26, 0)),
    ("a copy from before a pointer", [SPILL, copied(1, 3), copied(2, 10), raised(2, -16), put(3, 8), call(1), EXIT], PLACES, comes_to(0, 7), refused(26, 0)),
    ("a copy of no byte of a pointer", [SPILL, copied(1, 3), copied(2, 10), raised(2, -8), put(3, 0), call(1), EXIT], PLACES, comes_to(0, 7), refused(26, 0)),
    ("a copy of up to 15 bytes", [SPILL, copied(3, 2), masked(3, 15), copied(2, 10), raised(2, -16), copied(1, 10), raised(1, -32), call(1), EXIT], PLACES, refused(30, 7), refused(26, 0)),
    ("a copy of too many bytes", [SPILL, copied(1, 3), copied(2, 10), raised(2, -9), put(3, 9), call(1), EXIT], PLACES, refused(28, 5), refused(26, 0)),
    ("a pointer first under same", [SPILL, copied(1, 10), raised(1, -8), copied(2, 3), put(3, 8), call(3), EXIT], PLACES, refused(30, 5), refused(26, 0)),
    ("a pointer second under same", [SPILL, copied(2, 10), raised(2, -8), copied(1, 3), put(3, 8), call(3), EXIT], PLACES, refused(30, 5), refused(26, 0)),
    ("a pointer as a text", [SPILL, copied(1, 10), raised(1, -8), put(2, 8), call(18), EXIT], PLACES, refused(30, 4), refused(26, 0)),
    ("a text before a pointer", [SPILL, copied(1, 10), raised(1, -16), put(2, 8), call(18), EXIT], PLACES, comes_to(MAX, 6), refused(26, 0)),
    ("a pointer as the second text", [SPILL, put(2, 8), copied(3, 10), raised(3, -8), put(4, 8), call(16), EXIT], PLACES, refused(30, 5), refused(26, 0)),
    # calls that write
    ("a copy into a pointer", [SPILL, copied(2, 1), copied(1, 10), raised(1, -8), put(3, 1), call(1), RELOAD, CLEAR, EXIT], PLACES, refused(30, 6), refused(26, 0)),
    ("a copy before a pointer", [SPILL, copied(2, 1), copied(1, 10), raised(1, -16), put(3, 8), call(1), *FIFTH], PLACES, comes_to(5, 9), refused(26, 0)),
    ("a copy of nothing into a pointer", [SPILL, copied(2, 1), copied(1, 10), raised(1, -8), put(3, 0), call(1), *FIFTH], PLACES, comes_to(5, 9), refused(26, 0)),
    ("a copy into a number", [store_number(10, -8, 9), copied(7, 1), copied(2, 1), copied(1, 10), raised(1, -8), put(3, 1), call(1), RELOAD, added(7, 6), EXIT], PLACES, refused(23, 8), refused(23, 8)),
    ("a fill of a pointer's cell", [SPILL, copied(1, 10), raised(1, -8), put(2, 0), put(3, 8), call(2), RELOAD, CLEAR, EXIT], PLACES, refused(30, 6), refused(26, 0)),
    ("a fill of a number's cell", [copied(7, 1), copied(1, 10), raised(1, -8), put(2, 0), put(3, 8), call(2), RELOAD, added(7, 6), EXIT], PLACES, refused(23, 7), refused(23, 7)),
    ("a fill behind a pointer", [store(10, -16, 1), copied(1, 10), raised(1, -8), put(2, 1), put(3, 8), call(2), load(6, 10, -16), load_byte(0, 6, 5), EXIT], PLACES, comes_to(5, 9), refused(26, 0)),
    # calls that only read leave the cells as they are
    ("a pointer kept over a call", [SPILL, call(18), *FIFTH], PLACES, comes_to(5, 5), refused(26, 0)),
    ("a number kept over a call", [load_byte(6, 1, 9), store(10, -8, 6), copied(7, 1), call(18), RELOAD, added(7, 6), load_byte(0, 7, 0), EXIT], PLACES, comes_to(9, 8), refused(23, 5)),
]

# Numbers, with an input of 256 bytes: bits that are known, sums and differences that wrap, conditions with a sign, and where nothing is left.
NUMBERS = [
    ("a bound by a mask", [CLEAR, load(6, 1, 0), fields(0x45, 6, 0, 2, -256), added(1, 6), load_byte(0, 1, 0), EXIT], bytes([9] + [0] * 7 + [42] * 248), comes_to(42, 6), refused(23, 3)),
    ("a mask of the low bits", [load_byte(6, 1, 0), masked(6, -8), added(1, 6), load(0, 1, 0), EXIT], bytes([15] + [0] * 7 + [1]), comes_to(1, 5), refused(24, 3)),
    ("one less than a number that isn't 0", [CLEAR, load_byte(6, 1, 0), fields(0x15, 6, 0, 3, 0), raised(6, -1), added(1, 6), load_byte(0, 1, 0), EXIT], bytes([9]) + PLACES[1:], comes_to(8, 7), refused(23, 4)),
    ("one less, and tested behind", [CLEAR, load_byte(6, 1, 0), fields(0x17, 6, 0, 0, 1), fields(0x25, 6, 0, 2, 254), added(1, 6), load_byte(0, 1, 0), EXIT], bytes(256), comes_to(0, 5), comes_to(0, 5)),
    ("an index with a sign", [CLEAR, fields(0x81, 6, 1, 0, 0), fields(0xC5, 6, 0, 3, 0), fields(0x65, 6, 0, 2, 63), added(1, 6), load_byte(0, 1, 0), EXIT], bytes([9, 0, 0, 0]) + PLACES[4:], comes_to(9, 7), refused(23, 4)),
    ("an index below 0", [CLEAR, fields(0x81, 6, 1, 0, 0), fields(0xC5, 6, 0, 3, 0), fields(0x65, 6, 0, 2, 63), added(1, 6), load_byte(0, 1, 0), EXIT], bytes([255] * 256), comes_to(0, 4), refused(23, 4)),
    ("a way that is never gone", [load_byte(6, 1, 0), fields(0x55, 6, 0, 1, 300), raised(6, 1000), added(1, 6), load_byte(0, 1, 0), EXIT], bytes([9]) + PLACES[1:], comes_to(9, 5), refused(24, 4)),
    ("an access on a way that is never gone", [put(0, 5), fields(0x15, 0, 0, 1, 6), EXIT, load_byte(0, 0, 0), EXIT], b"", refused(24, 3), refused(24, 3)),
    ("a pointer raised by a dead number", [put(6, 5), fields(0x15, 6, 0, 2, 6), CLEAR, EXIT, added(1, 6), load_byte(0, 1, 0), EXIT], b"", comes_to(0, 4), comes_to(0, 4)),
    ("a pointer raised far, and by a dead number", [put(6, 5), fields(0x15, 6, 0, 2, 6), CLEAR, EXIT, raised(1, 256), added(1, 6), load_byte(0, 1, 0), EXIT], b"", refused(24, 6), refused(24, 6)),
    ("a pointer less a dead number", [put(6, 5), fields(0x15, 6, 0, 2, 6), CLEAR, EXIT, raised(1, 8), fields(0x1F, 1, 6, 0, 0), load_byte(0, 1, 0), EXIT], b"", comes_to(0, 4), comes_to(0, 4)),
    ("code for longer inputs", [CLEAR, copied(6, 2), fields(0xA5, 6, 0, 3, 300), fields(0x77, 6, 0, 0, 1), added(1, 6), load_byte(0, 1, 0), EXIT], PLACES, comes_to(0, 4), comes_to(0, 4)),
    ("an access by a dead number", [put(6, 5), fields(0x15, 6, 0, 2, 6), CLEAR, EXIT, load_byte(0, 6, 0), EXIT], b"", refused(24, 4), refused(24, 4)),
    ("a narrow condition on a wide number", [CLEAR, load(6, 1, 0), fields(0x26, 6, 0, 2, 255), added(1, 6), load_byte(0, 1, 0), EXIT], PLACES, refused(23, 3), refused(23, 3)),
    # negations, shifts by a range, extended signs, signed divisions and low parts
    ("a negated number", [load_byte(6, 1, 0), masked(6, 7), raised(6, 1), fields(0x87, 6, 0, 0, 0), copied(7, 10), added(7, 6), load_byte(0, 7, 0), EXIT], bytes([6]), comes_to(0, 8), refused(23, 5)),
    ("a negated number that may be 0", [load_byte(6, 1, 0), masked(6, 7), fields(0x87, 6, 0, 0, 0), copied(7, 10), added(7, 6), load_byte(0, 7, 0), EXIT], bytes([6]), refused(23, 4), refused(23, 4)),
    ("a bit by its number", [load_byte(6, 1, 0), masked(6, 7), put(7, 1), fields(0x6F, 7, 6, 0, 0), added(1, 7), load_byte(0, 1, 0), EXIT], bytes([3]) + PLACES[1:], comes_to(8, 7), refused(23, 4)),
    ("a bit by its number, one further", [load_byte(6, 1, 0), masked(6, 8), put(7, 1), fields(0x6F, 7, 6, 0, 0), added(1, 7), load_byte(0, 1, 0), EXIT], bytes([3]) + PLACES[1:], refused(24, 5), refused(23, 4)),
    ("a small number with its sign extended", [load_byte(6, 1, 0), masked(6, 127), fields(0xBF, 6, 6, 8, 0), added(1, 6), load_byte(0, 1, 0), EXIT], bytes([9]) + PLACES[1:], comes_to(9, 6), refused(23, 3)),
    ("a byte with its sign extended", [load_byte(6, 1, 0), fields(0xBF, 6, 6, 8, 0), added(1, 6), load_byte(0, 1, 0), EXIT], bytes([9]) + PLACES[1:], refused(23, 2), refused(23, 2)),
    ("a byte with a half's sign extended", [load_byte(6, 1, 0), fields(0xBF, 6, 6, 16, 0), added(1, 6), load_byte(0, 1, 0), EXIT], bytes([9]) + PLACES[1:], comes_to(9, 5), refused(23, 2)),
    ("a signed remainder", [load_byte(6, 1, 0), fields(0x97, 6, 0, 1, 16), added(1, 6), load_byte(0, 1, 0), EXIT], bytes([25]) + PLACES[1:], comes_to(9, 5), refused(23, 2)),
    ("a signed remainder by a number below 0", [load_byte(6, 1, 0), fields(0x97, 6, 0, 1, -16), added(1, 6), load_byte(0, 1, 0), EXIT], bytes([25]) + PLACES[1:], refused(23, 2), refused(23, 2)),
    ("a signed remainder of any number", [load(6, 1, 0), fields(0x97, 6, 0, 1, 16), added(1, 6), load_byte(0, 1, 0), EXIT], PLACES, refused(23, 2), refused(23, 2)),
    ("a signed quotient", [load_byte(6, 1, 0), fields(0x37, 6, 0, 1, 2), added(1, 6), load_byte(0, 1, 0), EXIT], bytes([18]) + PLACES[1:], comes_to(9, 5), refused(23, 2)),
    ("the low bytes of a byte", [load_byte(6, 1, 0), fields(0xD4, 6, 0, 0, 16), added(1, 6), load_byte(0, 1, 0), EXIT], bytes([9]) + PLACES[1:], comes_to(9, 5), refused(24, 3)),
    ("the bytes of a byte, turned", [load_byte(6, 1, 0), fields(0xDC, 6, 0, 0, 16), added(1, 6), load_byte(0, 1, 0), EXIT], bytes([9]) + PLACES[1:], refused(24, 3), refused(24, 3)),
    ("the low half of a number past 2^32", [load_byte(7, 1, 0), wide(6, 2**32), added(6, 7), fields(0xBC, 6, 6, 0, 0), added(1, 6), load_byte(0, 1, 0), EXIT], bytes([9]) + PLACES[1:], comes_to(9, 7), refused(23, 5)),
    ("the low half of a number about 2^32", [load_byte(7, 1, 0), wide(6, 2**32 - 1), added(6, 7), fields(0xBC, 6, 6, 0, 0), added(1, 6), load_byte(0, 1, 0), EXIT], bytes([9]) + PLACES[1:], refused(24, 6), refused(23, 5)),
]

# R7 is the address of the byte of the input that its first byte names: 0 to 255 bytes from its first.
NAMED_BYTE = [load_byte(6, 1, 0), copied(7, 1), added(7, 6)]


def byte_below(opcode, base, bound, offset):
    """The byte that is so far from R7, if the condition doesn't hold of R7 and of what is so far from a window's first byte; else 0."""
    return [*NAMED_BYTE, copied(8, base), raised(8, bound), CLEAR, fields(opcode, 7, 8, 1, 0), load_byte(0, 7, offset), EXIT]


# The last eight bytes of the input, by a pointer to its end, where there are as many; else 0.
LAST_EIGHT = [copied(6, 1), added(6, 2), copied(7, 1), raised(7, 8), CLEAR, fields(0x2D, 7, 6, 1, 0), load(0, 6, -8), EXIT]

# Pointers as numbers, with an input of 256 bytes and an output of 8. The windows are at 2^41 and 2^42.
POINTERS = [
    # conditions narrow a pointer's offsets
    ("an end pointer", LAST_EIGHT, PLACES, comes_to(int.from_bytes(PLACES[-8:], "little"), 8), refused(22, 5)),
    ("an end pointer of a short input", LAST_EIGHT, b"1234567", comes_to(0, 7), refused(22, 5)),
    ("a pointer below another", byte_below(0x3D, 1, 64, 192), PLACES, comes_to(192, 9), refused(22, 6)),
    ("a pointer below another, one byte further", byte_below(0x3D, 1, 64, 193), PLACES, refused(24, 7), refused(22, 6)),
    ("a pointer not above another", byte_below(0x2D, 1, 64, 191), PLACES, comes_to(191, 9), refused(22, 6)),
    ("a pointer below another with a sign", byte_below(0x7D, 1, 64, 192), PLACES, comes_to(192, 9), refused(22, 6)),
    ("a pointer that is another", byte_below(0x5D, 1, 5, 250), bytes([5]) + PLACES[1:], comes_to(255, 9), refused(22, 6)),
    ("a pointer that is none", [CLEAR, fields(0x55, 1, 0, 1, 0), put(0, 1), EXIT], b"", comes_to(0, 3), refused(22, 1)),
    ("some bit of a pointer", [CLEAR, fields(0x45, 1, 0, 1, 7), put(0, 1), EXIT], b"", comes_to(1, 4), refused(22, 1)),
    # where nothing is left of it, it stays; a 32-bit condition narrows nothing; nor does another window's address
    ("an access by a pointer that is none", [CLEAR, fields(0x55, 1, 0, 1, 0), load_byte(0, 1, 256), EXIT], b"", refused(24, 2), refused(22, 1)),
    ("a pointer below another in 32 bits", byte_below(0x3E, 1, 64, 192), PLACES, refused(24, 7), refused(22, 6)),
    ("a pointer below another window's", byte_below(0x3D, 3, 64, 192), PLACES, refused(24, 7), refused(22, 6)),
    # differences
    ("how far a pointer is", [*NAMED_BYTE, taken_from(7, 1), added(1, 7), load_byte(0, 1, 0), EXIT], bytes([9]) + PLACES[1:], comes_to(9, 7), refused(22, 3)),
    ("how far two windows are", [copied(0, 3), taken_from(0, 1), EXIT], b"", comes_to(2**41, 3), refused(22, 1)),
    ("a pointer moved from window to window", [copied(6, 3), taken_from(6, 1), added(1, 6), CLEAR, EXIT], b"", refused(23, 2), refused(22, 1)),
    # what else is done with pointers
    ("a difference of two pointers in 32 bits", [copied(7, 1), fields(0x1C, 7, 1, 0, 0), CLEAR, EXIT], b"", refused(22, 1), refused(22, 1)),
    ("a sum of two pointers", [added(1, 3), CLEAR, EXIT], b"", refused(22, 0), refused(22, 0)),
    ("a number less a pointer", [taken_from(2, 1), CLEAR, EXIT], b"", refused(22, 0), refused(22, 0)),
]



def load_word(dst, offset):
    return fields(0x61, dst, 1, offset, 0)


# Two numbers of 32 bits, of which the first is an index: 9 and 3.
TWO = struct.pack("<II", 9, 3) + PLACES[8:]


def byte_where(sum_of, offset=0):
    """The byte at an index in R7, if R6, of which some slots make a sum, is no more than the input's length; else 0."""
    return [load_word(7, 0), *sum_of, CLEAR, fields(0x2D, 6, 2, 2, 0), added(1, 7), load_byte(0, 1, offset), EXIT]


# Sums that are known where a condition is tested, with an input of 256 bytes.
SUMS = [
    ("an index and one", byte_where([copied(6, 7), raised(6, 1)]), TWO, comes_to(9, 8), refused(23, 5)),
    ("an index and one past the input", byte_where([copied(6, 7), raised(6, 1)]), struct.pack("<I", 256), comes_to(0, 6), refused(23, 5)),
    ("an index and one, one byte further", byte_where([copied(6, 7), raised(6, 1)], 1), TWO, refused(24, 6), refused(23, 5)),
    ("an index and a length", [load_word(8, 4), CLEAR, fields(0x15, 8, 0, 7, 0), *byte_where([copied(6, 7), added(6, 8)])], TWO, comes_to(9, 11), refused(23, 8)),
    ("an index and a length that may be 0", [load_word(8, 4), *byte_where([copied(6, 7), added(6, 8)])], TWO, refused(24, 7), refused(23, 6)),
    ("an end pointer and a length", [load_word(7, 0), copied(8, 1), added(8, 7), copied(6, 8), raised(6, 1), added(2, 1), CLEAR, fields(0x2D, 6, 2, 1, 0), load_byte(0, 8, 0), EXIT], TWO, comes_to(9, 10), refused(23, 2)),
    ("a sum of 32 bits", byte_where([copied(6, 7), fields(0x04, 6, 0, 0, 1)]), TWO, refused(24, 6), refused(23, 5)),
    ("a copy of 32 bits", byte_where([fields(0xBC, 6, 7, 0, 0), raised(6, 1)]), TWO, comes_to(9, 8), refused(23, 5)),
    ("a sum of which a number is read anew", byte_where([copied(6, 7), raised(6, 1), load_word(7, 4)]), TWO, refused(24, 7), refused(23, 6)),
    ("a sum where a jump leads", byte_where([copied(6, 7), raised(6, 1), jump(0)]), TWO, comes_to(9, 9), refused(23, 6)),
    ("a sum that may pass 2^64", [load(7, 1, 0), *byte_where([copied(6, 7), raised(6, 1)])[1:]], TWO, refused(23, 5), refused(23, 5)),
    ("a sum raised again", byte_where([copied(6, 7), raised(6, 1), raised(6, 1)]), TWO, comes_to(9, 9), refused(23, 6)),
    # what other registers hold ends none
    ("an index and a length, past a wide constant", [load_word(8, 4), CLEAR, fields(0x15, 8, 0, 9, 0), *byte_where([copied(6, 7), added(6, 8), wide(9, 5)])], TWO, comes_to(9, 12), refused(23, 10)),
    ("an index and a length, past a byte swap", [load_word(8, 4), CLEAR, fields(0x15, 8, 0, 8, 0), *byte_where([copied(6, 7), added(6, 8), fields(0xD4, 4, 0, 0, 16)])], TWO, comes_to(9, 12), refused(23, 9)),
    ("an index and a length, past a copy", [load_word(8, 4), CLEAR, fields(0x15, 8, 0, 8, 0), *byte_where([copied(6, 7), added(6, 8), copied(9, 7)])], TWO, comes_to(9, 12), refused(23, 9)),
    ("an index and a length, read anew past a copy", [load_word(8, 4), CLEAR, fields(0x15, 8, 0, 9, 0), *byte_where([copied(6, 7), added(6, 8), copied(9, 7), load_word(7, 4)])], TWO, refused(24, 11), refused(23, 10)),
]



# The sum of an index and a length, which R7 and R8 hold, in R6.
WHOLE = [copied(6, 7), added(6, 8)]

# Where that sum is greater than the input's length.
PAST = fields(0x2D, 6, 2, 0, 0)


def bytes_where(moves, sum_of=WHOLE, test=PAST):
    """What some slots come to, if the sum of an index in R7 and a length in R8 is not past the input, or a test else does not hold; else 0."""
    code, words = test
    ahead = code[:2] + struct.pack("<h", len(moves)) + code[4:], words.replace("+0", f"+{len(moves)}")
    return [load_word(7, 0), load_word(8, 4), *sum_of, CLEAR, ahead, *moves, EXIT]


# Whether the bytes from the index on are themselves.
ALIKE = [added(1, 7), copied(2, 1), copied(3, 8), call(3)]

# An index and a length of the output's bytes: 2 and 3.
SHORT = struct.pack("<II", 2, 3) + PLACES[8:]

# An index and a length of more than 3: 9 and 5.
FIVE = struct.pack("<II", 9, 5) + PLACES[8:]

# An index and a length of a byte each, in R7 and R8, and their sum in R6.
BYTES = [load_byte(7, 1, 0), load_byte(8, 1, 4), *WHOLE, CLEAR]


def either_test(test, other, moves):
    """What some slots come to, behind one of two tests of that sum: the first where a third byte isn't 0."""
    return [*BYTES, load_byte(5, 1, 12), fields(0x15, 5, 0, 2, 0), test, jump(3), *WHOLE, other, *moves, EXIT]


# Two indices of 2 bytes that are alike, and that length between them.
ALIKE_TWO = struct.pack("<III", 12, 2, 14) + bytes([5, 6, 5, 6])

# The bytes from either on, with the length in R3, where both have passed; else 0.
EITHER = [load_word(7, 0), load_word(8, 4), load_word(9, 8), *WHOLE, CLEAR, fields(0x2D, 6, 2, 8, 0), copied(6, 9), added(6, 8), fields(0x2D, 6, 2, 5, 0), copied(3, 8), copied(2, 1), added(2, 9), added(1, 7), call(3), EXIT]

# Pairs of registers whose greatest sum is known, with an input of 256 bytes and an output of 8.
PAIRS = [
    # a pointer and a length
    ("bytes from an index on", bytes_where(ALIKE), TWO, comes_to(1, 11), refused(23, 6)),
    ("bytes from an index on, past the input", bytes_where(ALIKE), struct.pack("<II", 254, 3), comes_to(0, 7), refused(23, 6)),
    ("bytes from an index on, the length first", bytes_where(ALIKE, [copied(6, 8), added(6, 7)]), TWO, comes_to(1, 11), refused(23, 6)),
    ("bytes from an index on, by the input's length below it", bytes_where(ALIKE, WHOLE, fields(0xAD, 2, 6, 0, 0)), TWO, comes_to(1, 11), refused(23, 6)),
    ("bytes from an index on, the pointer added to it", bytes_where([added(7, 1), copied(1, 7), copied(2, 7), copied(3, 8), call(3)]), TWO, comes_to(1, 12), refused(23, 6)),
    ("a number at an index", bytes_where([added(1, 7), copied(2, 8), call(18)]), struct.pack("<II", 9, 3) + b"x123", comes_to(123, 10), refused(23, 6)),
    ("bytes from two indices on", EITHER, ALIKE_TWO, comes_to(1, 16), refused(23, 12)),
    ("bytes from an index on after a call", bytes_where([copied(9, 1), added(9, 7), call(18), copied(1, 9), copied(2, 9), copied(3, 8), call(3)]), TWO, comes_to(1, 14), refused(23, 7)),
    ("a copy to an index of the output", bytes_where([copied(2, 1), added(3, 7), copied(1, 3), copied(3, 8), call(1)], WHOLE, fields(0x2D, 6, 4, 0, 0)), SHORT, comes_to(0, 12, [0, 0, 2]), refused(23, 7)),
    ("a copy to an index of the input", bytes_where([copied(2, 1), added(1, 7), copied(3, 8), call(1)]), TWO, refused(28, 9), refused(23, 7)),
    # no more than that
    ("bytes from an index on, one further", bytes_where([added(1, 7), raised(1, 1), *ALIKE[1:]]), TWO, refused(28, 10), refused(23, 6)),
    ("bytes from one before an index on", bytes_where([added(1, 7), raised(1, -1), *ALIKE[1:]]), TWO, refused(28, 10), refused(23, 6)),
    ("bytes of the stack from an index on", bytes_where([copied(9, 10), raised(9, -256), added(9, 7), copied(1, 9), *ALIKE[1:]]), TWO, refused(28, 12), refused(23, 8)),
    ("bytes from an index on, by a sum of 32 bits", bytes_where(ALIKE, [copied(6, 7), fields(0x0C, 6, 8, 0, 0)]), TWO, refused(28, 9), refused(23, 6)),
    ("bytes from an index on, as many in 32 bits", bytes_where([added(1, 7), copied(2, 1), fields(0xBC, 3, 8, 0, 0), call(3)]), TWO, refused(28, 9), refused(23, 6)),
    ("bytes from an index on, the length read anew", bytes_where([load_byte(8, 1, 4), *ALIKE]), TWO, refused(28, 10), refused(23, 7)),
    ("bytes from an index on where a jump leads", bytes_where([added(1, 7), jump(0), *ALIKE[1:]]), TWO, comes_to(1, 12), refused(23, 6)),
    ("bytes from an index on, another number tested", bytes_where(ALIKE, WHOLE, fields(0x2D, 7, 2, 0, 0)), TWO, refused(28, 9), refused(28, 9)),
    # the sum of a pair
    ("the last byte from an index on", bytes_where([fields(0x15, 8, 0, 3, 0), added(1, 7), added(1, 8), load_byte(0, 1, -1)]), TWO, comes_to(11, 11), refused(23, 7)),
    ("the last byte from an index on, one further", bytes_where([fields(0x15, 8, 0, 3, 0), added(1, 7), added(1, 8), load_byte(0, 1, 0)]), TWO, refused(24, 9), refused(23, 7)),
    ("the last byte from an index on, by a copy", bytes_where([fields(0x15, 8, 0, 4, 0), copied(9, 7), added(9, 8), added(1, 9), load_byte(0, 1, -1)]), TWO, comes_to(11, 12), refused(23, 9)),
    ("the last byte from an index on, added in 32 bits", bytes_where([fields(0x15, 8, 0, 4, 0), copied(9, 7), fields(0x0C, 9, 8, 0, 0), added(1, 9), load_byte(0, 1, -1)]), TWO, refused(24, 10), refused(23, 9)),
    ("the last byte from an index on, where a jump leads", bytes_where([fields(0x15, 8, 0, 4, 0), jump(0), added(1, 7), added(1, 8), load_byte(0, 1, -1)]), TWO, comes_to(11, 12), refused(23, 8)),
    ("the last byte from an index on, the length read anew", bytes_where([load_byte(8, 1, 4), fields(0x15, 8, 0, 3, 0), added(1, 7), added(1, 8), load_byte(0, 1, -1)]), TWO, refused(24, 10), refused(23, 8)),
    # where one of a pair is narrowed the other is
    ("a byte at an index, its length not 0", bytes_where([fields(0x15, 8, 0, 2, 0), added(1, 7), load_byte(0, 1, 0)]), TWO, comes_to(9, 10), refused(23, 7)),
    ("a byte at an index, its length 0", bytes_where([fields(0x15, 8, 0, 2, 0), added(1, 7), load_byte(0, 1, 0)]), struct.pack("<II", 256, 0) + PLACES[8:], comes_to(0, 8), refused(23, 7)),
    ("a byte at an index, its length not 0, one further", bytes_where([fields(0x15, 8, 0, 2, 0), added(1, 7), load_byte(0, 1, 1)]), TWO, refused(24, 8), refused(23, 7)),
    ("a byte behind an index, its length more than 3", bytes_where([fields(0x25, 8, 0, 1, 3), EXIT, added(1, 7), load_byte(0, 1, 3)]), FIVE, comes_to(12, 10), refused(23, 8)),
    ("a byte behind an index, its length more than 3, one further", bytes_where([fields(0x25, 8, 0, 1, 3), EXIT, added(1, 7), load_byte(0, 1, 4)]), FIVE, refused(24, 9), refused(23, 8)),
    ("a byte behind a length, its index not below 4", bytes_where([fields(0xA5, 7, 0, 2, 4), added(1, 8), load_byte(0, 1, 3)]), FIVE, comes_to(8, 10), refused(23, 7)),
    ("a byte behind a length, its index not below 4, one further", bytes_where([fields(0xA5, 7, 0, 2, 4), added(1, 8), load_byte(0, 1, 4)]), FIVE, refused(24, 8), refused(23, 7)),
    ("a byte at a pointer, its length not 0", bytes_where([copied(9, 1), added(9, 7), fields(0x15, 8, 0, 1, 0), load_byte(0, 9, 0)]), TWO, comes_to(9, 11), refused(23, 7)),
    ("a byte at a pointer, its length not 0, one further", bytes_where([copied(9, 1), added(9, 7), fields(0x15, 8, 0, 1, 0), load_byte(0, 9, 1)]), TWO, refused(24, 9), refused(23, 7)),
    ("a byte at an index, a copy of its length not 0", bytes_where([fields(0x15, 9, 0, 2, 0), added(1, 7), load_byte(0, 1, 0)], [copied(9, 8), *WHOLE]), TWO, comes_to(9, 11), refused(23, 8)),
    ("a byte at an index, its length not 0 in 32 bits", bytes_where([fields(0x16, 8, 0, 2, 0), added(1, 7), load_byte(0, 1, 0)]), TWO, comes_to(9, 10), refused(23, 7)),
    ("a byte at an index, its length read anew not 0", bytes_where([load_byte(8, 1, 4), fields(0x15, 8, 0, 2, 0), added(1, 7), load_byte(0, 1, 0)]), TWO, refused(24, 9), refused(23, 8)),
    # where a jump is taken, and where ways meet
    ("bytes from an index on, where a jump is taken", bytes_where([fields(0x25, 8, 0, 1, 3), EXIT, *ALIKE]), FIVE, comes_to(1, 12), refused(23, 8)),
    ("bytes from an index on, where ways meet", bytes_where([ROUND_IF_EMPTY, put(9, 0), *ALIKE]), TWO, comes_to(1, 13), refused(23, 8)),
    ("bytes from an index on, one further, where ways meet", bytes_where([ROUND_IF_EMPTY, put(9, 0), added(1, 7), raised(1, 1), *ALIKE[1:]]), TWO, refused(28, 12), refused(23, 8)),
    ("bytes from an index on, the length read anew on one way", bytes_where([ROUND_IF_EMPTY, load_byte(8, 1, 4), *ALIKE]), TWO, refused(28, 11), refused(23, 8)),
    ("bytes from an index on, tested on one way alone", [*BYTES, ROUND_IF_EMPTY, fields(0x2D, 6, 2, 4, 0), *ALIKE, EXIT], TWO, refused(28, 10), refused(28, 10)),
    ("bytes from an index on, by either of two tests", either_test(fields(0x2D, 6, 2, 8, 0), fields(0x25, 6, 0, 4, 100), ALIKE), TWO, comes_to(1, 14), refused(28, 15)),
    ("bytes from an index on, one further, by the wider of two tests", either_test(fields(0x25, 6, 0, 9, 100), fields(0x2D, 6, 2, 5, 0), [added(1, 7), raised(1, 1), *ALIKE[1:]]), TWO, refused(28, 16), refused(28, 16)),
    ("bytes from an index on, one further, by two narrow tests", either_test(fields(0x25, 6, 0, 9, 100), fields(0x25, 6, 0, 5, 200), [added(1, 7), raised(1, 1), *ALIKE[1:]]), TWO, comes_to(1, 15), refused(28, 16)),
    ("a byte at an index, another number not 0", bytes_where([fields(0x15, 2, 0, 2, 0), added(1, 7), load_byte(0, 1, 0)]), TWO, refused(24, 8), refused(23, 7)),
]


def store_word(offset, src):
    return named(f"word r10{offset:+} = r{src}", 0x63, 10, src, offset, 0)


def put_word(offset, n):
    return named(f"word r10{offset:+} = {n}", 0x62, 10, 0, offset, n)


def reload_word(dst, offset):
    return named(f"r{dst} = word r10{offset:+}", 0x61, dst, 10, offset, 0)


def at_word(offset, further=0):
    """The byte of the input that a word of the stack names, or one so much further."""
    return [reload_word(6, offset), added(1, 6), load_byte(0, 1, further), EXIT]


# Words of 4 bytes in the stack's cells, with an input of 256 bytes and an output of 8.
WORDS = [
    # what a half holds
    ("a word of the start", at_word(-4), PLACES, comes_to(0, 4), refused(23, 1)),
    ("a word", [load_byte(6, 1, 9), store_word(-4, 6), *at_word(-4)], PLACES, comes_to(9, 6), refused(23, 3)),
    ("the low word of two", [put_word(-8, 9), put_word(-4, 200), *at_word(-8)], PLACES, comes_to(9, 6), refused(23, 3)),
    ("the high word of two", [put_word(-8, 9), put_word(-4, 200), *at_word(-4, 55)], PLACES, comes_to(255, 6), refused(23, 3)),
    ("the high word of two, a byte too far", [put_word(-8, 9), put_word(-4, 200), *at_word(-4, 56)], PLACES, refused(24, 4), refused(23, 3)),
    ("two words as one number", [put_word(-8, 9), put_word(-4, 0), *INDEX], PLACES, comes_to(9, 6), refused(23, 3)),
    ("two words as one number, the high one not 0", [put_word(-8, 9), put_word(-4, 2), *INDEX], PLACES, refused(23, 3), refused(23, 3)),
    ("a word with its sign", [put_word(-4, 9), fields(0x81, 6, 10, -4, 0), added(1, 6), CLEAR, EXIT], PLACES, refused(23, 2), refused(23, 2)),
    # halves of numbers of 8 bytes
    ("a word over the low half of a number", [store_number(10, -8, 9), put_word(-8, 7), *INDEX], PLACES, comes_to(7, 6), refused(23, 3)),
    ("a word over the high half of a number", [store_number(10, -8, 9), put_word(-4, 7), *at_word(-8)], PLACES, comes_to(9, 6), refused(23, 3)),
    ("the low half of a number", [load(6, 1, 0), store(10, -8, 6), *at_word(-8)], PLACES, refused(24, 4), refused(23, 3)),
    ("the high half of a number", [load(6, 1, 0), fields(0x77, 6, 0, 0, 24), store(10, -8, 6), *at_word(-4)], PLACES, comes_to(7, 7), refused(23, 4)),
    ("a word, and 8 bytes over it", [put_word(-8, 9), load(6, 1, 0), store(10, -8, 6), *at_word(-8)], PLACES, refused(24, 5), refused(23, 4)),
    ("a wide number's low word stored", [load(6, 1, 0), store_word(-8, 6), *at_word(-8)], PLACES, refused(24, 4), refused(23, 3)),
    # halves of pointers
    ("a word over half a pointer", [SPILL, put_word(-8, 9), *at_word(-8)], PLACES, comes_to(9, 6), refused(26, 0)),
    ("a word over a pointer's other half", [SPILL, put_word(-4, 9), *at_word(-4)], PLACES, comes_to(9, 6), refused(26, 0)),
    ("the half of a pointer beside a word", [SPILL, put_word(-8, 9), reload_word(6, -4), CLEAR, EXIT], PLACES, refused(30, 2), refused(26, 0)),
    ("the half of a pointer before a word", [SPILL, put_word(-4, 9), reload_word(6, -8), CLEAR, EXIT], PLACES, refused(30, 2), refused(26, 0)),
    ("a word and half a pointer as one number", [SPILL, put_word(-8, 9), RELOAD, CLEAR, EXIT], PLACES, refused(30, 2), refused(26, 0)),
    ("a byte of a word and half a pointer", [SPILL, put_word(-8, 9), load_byte(6, 10, -4), CLEAR, EXIT], PLACES, refused(30, 2), refused(26, 0)),
    ("two words over a pointer", [SPILL, put_word(-8, 9), put_word(-4, 0), *INDEX], PLACES, comes_to(9, 7), refused(26, 0)),
    ("a pointer over a word", [put_word(-8, 9), SPILL, *FIFTH], PLACES, comes_to(5, 5), refused(26, 1)),
    # what may touch a word
    ("a byte into a word", [put_word(-8, 9), store_byte(10, -8, 1), *at_word(-8)], PLACES, refused(24, 4), refused(23, 3)),
    ("a byte into a word beside half a pointer", [SPILL, put_word(-8, 9), store_byte(10, -8, 1), reload_word(6, -8), CLEAR, EXIT], PLACES, refused(30, 3), refused(26, 0)),
    ("four bytes across two words", [put_word(-8, 9), put_word(-6, 0), *at_word(-8)], PLACES, refused(24, 4), refused(23, 3)),
    ("a word at one of two places", [SPILL, *ONE_OF_TWO, fields(0x62, 7, 0, -8, 9), reload_word(6, -8), CLEAR, EXIT], PLACES, refused(30, 6), refused(26, 0)),
    ("a copy into a word", [put_word(-8, 9), copied(7, 1), copied(2, 1), copied(1, 10), raised(1, -8), put(3, 1), call(1), reload_word(6, -8), added(7, 6), load_byte(0, 7, 0), EXIT], PLACES, refused(24, 9), refused(23, 8)),
    # where ways meet
    ("two words on two ways", [put_word(-4, 3), ROUND_IF_EMPTY, put_word(-4, 7), *at_word(-4, 248)], PLACES, comes_to(255, 7), refused(23, 4)),
    ("two words on two ways, a byte too far", [put_word(-4, 3), ROUND_IF_EMPTY, put_word(-4, 7), *at_word(-4, 249)], PLACES, refused(24, 5), refused(23, 4)),
    ("a number on one way, a word on the other", [store_number(10, -8, 3), ROUND_IF_EMPTY, put_word(-8, 7), RELOAD, added(1, 6), load_byte(0, 1, 248), EXIT], PLACES, comes_to(255, 7), refused(23, 4)),
    ("a pointer on one way, a word on the other", [SPILL, ROUND_IF_EMPTY, put_word(-8, 7), reload_word(6, -8), CLEAR, EXIT], PLACES, refused(30, 3), refused(26, 0)),
    # calls
    ("a copy of two words", [put_word(-8, 9), put_word(-4, 1), copied(1, 3), copied(2, 10), raised(2, -8), put(3, 8), call(1), EXIT], PLACES, comes_to(0, 8, [9, 0, 0, 0, 1, 0, 0, 0]), comes_to(0, 8, [9, 0, 0, 0, 1, 0, 0, 0])),
    ("a copy of a word and half a pointer", [SPILL, put_word(-8, 9), copied(1, 3), copied(2, 10), raised(2, -8), put(3, 8), call(1), EXIT], PLACES, refused(30, 6), refused(26, 0)),
]

# A pointer that goes over the stack, with an input of 256 bytes.
SPILLED = [SPILL, RELOAD, load_byte(0, 6, 0), EXIT]
SPILLS = [
    ("a pointer spilled", SPILLED, [42] * 256, comes_to(42, 4), refused(26, 0)),
    ("a pointer's first byte", [SPILL, load_byte(0, 10, -8), EXIT], [42] * 256, refused(30, 1), refused(26, 0)),
    ("a byte into a pointer's first", [SPILL, store_byte(10, -8, 1), RELOAD, CLEAR, EXIT], [42] * 256, refused(30, 2), refused(26, 0)),
]


def tables():
    for windows, rows in [((256, 0), SPILLS), ((256, 8), CELLS), ((256, 0), NUMBERS), ((256, 8), POINTERS), ((256, 0), SUMS), ((256, 8), PAIRS), ((256, 8), WORDS)]:
        for name, slots, given, second, first in rows:
            yield row(name, image(*windows, slots, 2), second, slots, given)
            yield row(f"{name}, version 1", image(*windows, slots), first, slots, given)
    yield row("a pointer spilled by raw code", code_of(SPILLED), comes_to(42, 4), SPILLED, [42])


# Programs that are verified

# Raw programs.
RAW = [
    (
        "exit_zero",
        [CLEAR, NOTHING, NOTHING, NOTHING, EXIT],
        accepted(5),
    ),
    (
        "division_and_modulo_by_zero",
        [
            put(0, 7),
            put(6, 0),
            fields(0x3f, 0, 6, 0, 0),
            NOTHING,
            EXIT,
        ],
        accepted(5),
    ),
    (
        "modulo_by_zero_in_32_bits",
        [
            wide(0, 0x1_0000_0007),
            put(6, 0),
            fields(0x9c, 0, 6, 0, 0),
            EXIT,
        ],
        accepted(5),
    ),
    (
        "unsigned_division_of_the_high_bit",
        [wide(0, 1 << 63), fields(0x37, 0, 0, 1, -1), NOTHING, EXIT],
        accepted(5),
    ),
    (
        "jump_targets to itself",
        [jump(-1), NOTHING, NOTHING, NOTHING, EXIT],
        refused(12, 0),
    ),
    (
        "jump_targets into a wide one",
        [CLEAR, jump(1), wide(0, 0), EXIT],
        refused(11, 1),
    ),
    (
        "jump_targets both",
        [jump(-1), jump(1), wide(0, 0), EXIT],
        refused(12, 0),
    ),
    (
        "unset_answer",
        [NOTHING, NOTHING, NOTHING, NOTHING, EXIT],
        refused(20, 4),
    ),
    (
        "stack_bounds",
        [fields(0x7a, 10, 0, -512, 0), CLEAR, NOTHING, NOTHING, EXIT],
        accepted(5),
    ),
    (
        "stack_bounds below",
        [fields(0x7a, 10, 0, -513, 0), CLEAR, NOTHING, NOTHING, EXIT],
        refused(24, 0),
    ),
    (
        "stack_bounds above",
        [fields(0x7a, 10, 0, -4, 0), CLEAR, NOTHING, NOTHING, EXIT],
        refused(24, 0),
    ),
    (
        "raw_text_section",
        [copied(0, 2), raised(0, 1), NOTHING, NOTHING, EXIT],
        accepted(5),
    ),
    (
        "signed_modulo",
        [put(0, -7), fields(0x97, 0, 0, 1, 3), NOTHING, NOTHING, EXIT],
        accepted(5),
    ),
    (
        "swap_to_big_endian",
        [
            put(0, 4660),
            fields(0xdc, 0, 0, 0, 16),
            NOTHING,
            NOTHING,
            EXIT,
        ],
        accepted(5),
    ),
    (
        "frame pointer written",
        [CLEAR, raised(10, 1), NOTHING, NOTHING, EXIT],
        refused(21, 1),
    ),
    (
        "pointers multiplied",
        [CLEAR, fields(0x2f, 1, 1, 0, 0), NOTHING, NOTHING, EXIT],
        refused(22, 1),
    ),
    (
        "pointers compared",
        [CLEAR, fields(0x1d, 1, 3, 0, 0), NOTHING, NOTHING, EXIT],
        accepted(5),
    ),
    (
        "far offset",
        [CLEAR, *[raised(1, 2**31 - 1)] * 5, EXIT],
        refused(23, 5),
    ),
    (
        "near offset",
        [CLEAR, *[raised(1, 2**31 - 1)] * 4, EXIT],
        accepted(6),
    ),
    (
        "number as address",
        [CLEAR, load_byte(0, 2, 0), NOTHING, NOTHING, EXIT],
        refused(24, 1),
    ),
    (
        "store to input",
        [CLEAR, store_byte(1, 0, 0), NOTHING, NOTHING, EXIT],
        refused(25, 1),
    ),
    (
        "pointer stored in a cell",
        [CLEAR, fields(0x7b, 10, 1, -8, 0), NOTHING, NOTHING, EXIT],
        accepted(5),
    ),
    (
        "pointer stored across cells",
        [CLEAR, fields(0x7b, 10, 1, -12, 0), NOTHING, NOTHING, EXIT],
        refused(26, 1),
    ),
    (
        "unknown helper",
        [CLEAR, call(4), NOTHING, NOTHING, EXIT],
        refused(27, 1),
    ),
    (
        "pointer as answer",
        [copied(0, 1), NOTHING, NOTHING, NOTHING, EXIT],
        refused(29, 4),
    ),
    ("the last byte of the input", [load_byte(0, 1, 4095), EXIT], accepted(2)),
    ("past the last byte of the input", [load_byte(0, 1, 4096), EXIT], refused(24, 0)),
    ("the last byte of the output", [CLEAR, store_byte(3, 4095, 1), EXIT], accepted(3)),
    ("past the last byte of the output", [CLEAR, store_byte(3, 4096, 1), EXIT], refused(24, 1)),
]

COPY = copied(6, 2)
MASK = fields(0x57, 6, 0, 0, 255)
ADD = added(1, 6)
BYTE = load_byte(0, 1, 0)
HALF = fields(0x69, 0, 1, 0, 0)
WORD = fields(0x79, 6, 1, 0, 0)
NARROW_BOUND = fields(0x26, 6, 0, 2, 255)
WHOLE_BOUND = fields(0x25, 6, 0, 2, 255)

# Images with a window of 256 bytes as their input, and none as their output.
IMAGES = [
    (
        "indexed_byte",
        [COPY, MASK, ADD, BYTE, EXIT],
        accepted(5),
    ),
    (
        "indexed_byte of two",
        [COPY, MASK, ADD, HALF, EXIT],
        refused(24, 3),
    ),
    (
        "jmp32_bounds_nothing",
        [CLEAR, WORD, NARROW_BOUND, ADD, BYTE, EXIT],
        refused(23, 3),
    ),
    (
        "jmp64 bounds",
        [CLEAR, WORD, WHOLE_BOUND, ADD, BYTE, EXIT],
        accepted(6),
    ),
    ("cut after one", [COPY], refused(13, 0)),
    ("cut after two", [COPY, MASK], refused(13, 1)),
    ("cut after three", [COPY, MASK, ADD], refused(13, 2)),
    (
        "cut after four",
        [COPY, MASK, ADD, BYTE],
        refused(13, 3),
    ),
]


def programs():
    yield from raw_rows(RAW)
    yield from image_rows(256, 0, IMAGES)


# Goes round the next slot if the input is empty.
ROUND = fields(0x15, 2, 0, 1, 0)
SET = put(6, 1)
READ = copied(0, 6)

# R6 is set on one of two paths, or on both; a jump on R2 leads round its first setting. Last the window of an address that is
# one of two.
JOINS = [
    (
        "on one path",
        [ROUND, SET, READ, EXIT],
        refused(20, 2),
    ),
    (
        "on both",
        [SET, ROUND, NOTHING, READ, EXIT],
        accepted(5),
    ),
    (
        "two windows",
        [ROUND, copied(1, 3), load_byte(0, 1, 0), EXIT],
        refused(20, 2),
    ),
]


def joins():
    return raw_rows(JOINS)


FROM_INPUT = copied(2, 1)
TO_OUTPUT = copied(1, 3)
LOAD = load_byte(0, 1, 0)
KEEP = copied(6, 3)
ADD_ANSWER = added(6, 0)
END = raised(1, 8)

# Programs that copy, with an input of 16 bytes and an output of 8.
COPIES = [
    (
        "of 4 bytes",
        [FROM_INPUT, TO_OUTPUT, put(3, 4), call(1), EXIT],
        accepted(5),
    ),
    (
        "of 9 bytes",
        [FROM_INPUT, TO_OUTPUT, put(3, 9), call(1), EXIT],
        refused(28, 3),
    ),
    (
        "and a load through an argument",
        [FROM_INPUT, TO_OUTPUT, put(3, 4), call(1), LOAD, EXIT],
        refused(20, 4),
    ),
]

# Programs that call 1 to 3, with the same windows.
OWN_CALLS = [
    (
        "copy",
        [
            CLEAR,
            CLEAR,
            CLEAR,
            FROM_INPUT,
            TO_OUTPUT,
            put(3, 4),
            call(1),
            EXIT,
        ],
        accepted(8),
    ),
    (
        "copy of a whole window",
        [
            CLEAR,
            CLEAR,
            CLEAR,
            FROM_INPUT,
            TO_OUTPUT,
            put(3, 8),
            call(1),
            EXIT,
        ],
        accepted(8),
    ),
    (
        "copy past the window",
        [
            CLEAR,
            CLEAR,
            CLEAR,
            FROM_INPUT,
            TO_OUTPUT,
            put(3, 9),
            call(1),
            EXIT,
        ],
        refused(28, 6),
    ),
    (
        "copy of up to 16 bytes",
        [
            CLEAR,
            CLEAR,
            copied(7, 2),
            FROM_INPUT,
            TO_OUTPUT,
            copied(3, 7),
            call(1),
            EXIT,
        ],
        refused(28, 6),
    ),
    (
        "copy to the input",
        [
            CLEAR,
            CLEAR,
            CLEAR,
            CLEAR,
            copied(2, 3),
            put(3, 4),
            call(1),
            EXIT,
        ],
        refused(28, 6),
    ),
    (
        "copy from a number",
        [
            CLEAR,
            CLEAR,
            CLEAR,
            CLEAR,
            TO_OUTPUT,
            put(3, 4),
            call(1),
            EXIT,
        ],
        refused(28, 6),
    ),
    (
        "copy of a pointer's number",
        [
            CLEAR,
            CLEAR,
            CLEAR,
            CLEAR,
            FROM_INPUT,
            TO_OUTPUT,
            call(1),
            EXIT,
        ],
        refused(28, 6),
    ),
    (
        "argument after copy",
        [
            CLEAR,
            CLEAR,
            FROM_INPUT,
            TO_OUTPUT,
            put(3, 4),
            call(1),
            LOAD,
            EXIT,
        ],
        refused(20, 6),
    ),
    (
        "fifth register after copy",
        [
            put(5, 1),
            FROM_INPUT,
            TO_OUTPUT,
            put(3, 4),
            call(1),
            CLEAR,
            copied(0, 5),
            EXIT,
        ],
        refused(20, 6),
    ),
    (
        "kept register after copy",
        [
            put(6, 1),
            FROM_INPUT,
            TO_OUTPUT,
            put(3, 4),
            call(1),
            CLEAR,
            copied(0, 6),
            EXIT,
        ],
        accepted(8),
    ),
    (
        "copy answers nothing else",
        [
            KEEP,
            FROM_INPUT,
            TO_OUTPUT,
            put(3, 4),
            call(1),
            ADD_ANSWER,
            store_byte(6, 7, 1),
            EXIT,
        ],
        accepted(8),
    ),
    (
        "fill",
        [
            CLEAR,
            CLEAR,
            CLEAR,
            CLEAR,
            TO_OUTPUT,
            put(3, 8),
            call(2),
            EXIT,
        ],
        accepted(8),
    ),
    (
        "fill of nothing at the end",
        [
            CLEAR,
            CLEAR,
            CLEAR,
            TO_OUTPUT,
            END,
            put(3, 0),
            call(2),
            EXIT,
        ],
        accepted(8),
    ),
    (
        "fill past the end",
        [
            CLEAR,
            CLEAR,
            CLEAR,
            TO_OUTPUT,
            END,
            put(3, 1),
            call(2),
            EXIT,
        ],
        refused(28, 6),
    ),
    (
        "fill of the input",
        [CLEAR, CLEAR, CLEAR, CLEAR, CLEAR, put(3, 4), call(2), EXIT],
        refused(28, 6),
    ),
    (
        "fill with a pointer",
        [
            CLEAR,
            CLEAR,
            CLEAR,
            FROM_INPUT,
            TO_OUTPUT,
            put(3, 4),
            call(2),
            EXIT,
        ],
        refused(28, 6),
    ),
    (
        "fill answers nothing else",
        [
            KEEP,
            CLEAR,
            TO_OUTPUT,
            put(3, 4),
            call(2),
            ADD_ANSWER,
            store_byte(6, 7, 1),
            EXIT,
        ],
        accepted(8),
    ),
    (
        "same",
        [
            KEEP,
            CLEAR,
            copied(2, 3),
            put(3, 8),
            call(3),
            ADD_ANSWER,
            store_byte(6, 6, 1),
            EXIT,
        ],
        accepted(8),
    ),
    (
        "same answers one",
        [
            KEEP,
            CLEAR,
            copied(2, 3),
            put(3, 8),
            call(3),
            ADD_ANSWER,
            store_byte(6, 7, 1),
            EXIT,
        ],
        refused(24, 6),
    ),
    (
        "same past the shorter window",
        [
            KEEP,
            CLEAR,
            copied(2, 3),
            put(3, 9),
            call(3),
            ADD_ANSWER,
            store_byte(6, 6, 1),
            EXIT,
        ],
        refused(28, 4),
    ),
    (
        "unset argument before an argument's rule",
        [
            CLEAR,
            CLEAR,
            copied(2, 3),
            put(3, 8),
            call(3),
            call(3),
            CLEAR,
            EXIT,
        ],
        refused(20, 5),
    ),
]


# Programs that call the store's helpers, and numbers that no helper has, with the same windows.
STORE_CALLS = [
    ("a text of the input", [CLEAR, CLEAR, CLEAR, CLEAR, call(18), EXIT], accepted(6)),
    ("a text that leaves the window", [CLEAR, CLEAR, CLEAR, raised(1, 1), call(18), EXIT], refused(28, 4)),
    ("a text of a pointer's length", [CLEAR, CLEAR, CLEAR, copied(2, 1), call(18), EXIT], refused(28, 4)),
    ("a text at a number", [CLEAR, CLEAR, CLEAR, copied(1, 2), call(18), EXIT], refused(28, 4)),
    ("a second text that is unset", [CLEAR, CLEAR, copied(3, 1), copied(4, 2), call(16), call(16), EXIT], refused(20, 5)),
    ("a number", [CLEAR, CLEAR, CLEAR, copied(1, 2), call(64), EXIT], accepted(6)),
    ("a pointer for a number", [CLEAR, CLEAR, CLEAR, CLEAR, call(64), EXIT], refused(28, 4)),
    ("the greatest answer", [KEEP, copied(1, 2), call(64), ADD_ANSWER, store_byte(6, 0, 1), EXIT], accepted(6)),
    ("above the greatest answer", [KEEP, copied(1, 2), call(64), ADD_ANSWER, store_byte(6, 1, 1), EXIT], refused(24, 4)),
    ("below the least answer", [KEEP, copied(1, 2), call(64), ADD_ANSWER, store_byte(6, -1, 1), EXIT], refused(24, 4)),
    *[
        (f"no helper {number}", [CLEAR, CLEAR, CLEAR, CLEAR, call(number), EXIT], refused(27, 4))
        for number in [-1, 0, 4, 15, 20, 63, 66, 127, 128]
    ],
]


def calls():
    return image_rows(16, 8, COPIES + OWN_CALLS + STORE_CALLS)


# Code, and the rule of form that it breaks first.
JUMP_TARGETS = [
    (
        [jump(-1), EXIT, EXIT, EXIT, EXIT],
        refused(12, 0),
    ),
    (
        [CLEAR, jump(1), wide(0, 0), EXIT],
        refused(11, 1),
    ),
    (
        [jump(-1), jump(1), wide(0, 0), EXIT],
        refused(12, 0),
    ),
    (
        [jump(-2), EXIT, EXIT, EXIT, EXIT],
        refused(10, 0),
    ),
    (
        [CLEAR, CLEAR, jump(0), jump(2), EXIT],
        refused(10, 3),
    ),
    (
        [CLEAR, EXIT, CLEAR, CLEAR, EXIT],
        refused(14, 2),
    ),
    (
        [CLEAR, jump(1), EXIT, CLEAR, EXIT],
        refused(14, 2),
    ),
    (
        [CLEAR, CLEAR, CLEAR, wide(0, 0)],
        refused(13, 3),
    ),
    ([CLEAR, CLEAR, wide(0, 0), EXIT], accepted(5)),
]


def forms():
    for slots, told in JUMP_TARGETS:
        yield row("jump_targets", code_of(slots), told, slots)
    yield row("no code", b"", "refused D2 0\n")


# Slots that are refused, at which of them, and why.
REFUSALS = [
    # no opcode of the table: a negation of a register, a signed load of 64 bits, forms that no class has
    ([[0x8f, 0, 0, 0, 0, 0, 0, 0]], 0, "D4"),
    ([[0x99, 0, 0, 0, 0, 0, 0, 0]], 0, "D4"),
    ([[0, 0, 0, 0, 0, 0, 0, 0]], 0, "D4"),
    # fields that are not used: a source beside an immediate, an immediate beside a source, any of an exit
    ([[0xb7, 0x10, 0, 0, 0, 0, 0, 0]], 0, "D5"),
    ([[0xbf, 0x10, 0, 0, 1, 0, 0, 0]], 0, "D5"),
    ([[0x95, 1, 0, 0, 0, 0, 0, 0]], 0, "D5"),
    ([[0x05, 0, 0, 0, 1, 0, 0, 0]], 0, "D5"),
    ([[0x06, 0, 1, 0, 0, 0, 0, 0]], 0, "D5"),
    ([[0x87, 0, 0, 0, 1, 0, 0, 0]], 0, "D5"),
    ([[0x62, 0x10, 0, 0, 0, 0, 0, 0]], 0, "D5"),
    ([[0x85, 0x30, 0, 0, 0, 0, 0, 0]], 0, "D5"),
    (
        [[0x18, 0x70, 0, 0, 0, 0, 0, 0], [0] * 8],
        0,
        "D5",
    ),
    # offsets that choose no operation
    ([[0x37, 0, 2, 0, 1, 0, 0, 0]], 0, "D5"),
    ([[0xb7, 0, 8, 0, 0, 0, 0, 0]], 0, "D5"),
    ([[0xbc, 0x10, 32, 0, 0, 0, 0, 0]], 0, "D5"),
    # registers
    ([[0xb7, 0x0b, 0, 0, 0, 0, 0, 0]], 0, "D6"),
    ([[0xbf, 0xb0, 0, 0, 0, 0, 0, 0]], 0, "D6"),
    # wide instructions that are cut
    ([[0x18, 0, 0, 0, 0, 0, 0, 0]], 0, "D7"),
    (
        [[0x18, 0, 0, 0, 0, 0, 0, 0], [0, 1, 0, 0, 0, 0, 0, 0]],
        0,
        "D7",
    ),
    # forms that are left out, told before all else
    ([[0x85, 0x1b, 1, 0, 0, 0, 0, 0]], 0, "D8"),
    ([[0x18, 0x10, 0, 0, 0, 0, 0, 0]], 0, "D8"),
    # byte swaps
    ([[0xd7, 0, 0, 0, 8, 0, 0, 0]], 0, "D9"),
    # of several rules the first, and the lowest slot
    ([[0xb7, 0xbb, 0, 0, 0, 0, 0, 0]], 0, "D5"),
    (
        [
            [0x18, 0, 0, 0, 0, 0, 0, 0],
            [0] * 8,
            [0xb7, 0x0b, 0, 0, 0, 0, 0, 0],
            [0] * 8,
        ],
        2,
        "D6",
    ),
]


# The opcodes of conditional jumps, of others, of byte swaps, and of each other instruction.
CONDITIONS = [code << 4 | kind for kind in (0x05, 0x0D, 0x06, 0x0E) for code in (1, 2, 3, 4, 5, 6, 7, 10, 11, 12, 13)]
JUMPS_ALWAYS = [0x05, 0x06]
SWAPS = [0xD4, 0xDC, 0xD7]
OTHERS = [
    *[code << 4 | kind for kind in (0x07, 0x04) for code in range(13)],
    *[code << 4 | kind for kind in (0x0F, 0x0C) for code in range(13) if code != 8],
    *[0x61, 0x69, 0x71, 0x79, 0x81, 0x89, 0x91],
    *[0x62, 0x6A, 0x72, 0x7A, 0x63, 0x6B, 0x73, 0x7B],
    *[0x85, 0x18],
]

# Those of forms that are left out: packets and atomic instructions.
LEFT_OUT = [0x20, 0x28, 0x30, 0x40, 0x48, 0x50, 0xC3, 0xDB]


def opcode_told(opcode):
    """What is told of code whose only instruction has this opcode: a jump leads past it, an exit answers nothing, and behind each other
    instruction there is none."""
    if opcode in CONDITIONS or opcode in JUMPS_ALWAYS:
        return refused(10, 0)
    if opcode == 0x95:
        return refused(20, 0)
    if opcode in SWAPS or opcode in OTHERS:
        return refused(13, 0)
    return "refused D8 0\n" if opcode in LEFT_OUT else "refused D4 0\n"


def opcodes():
    for opcode in range(256):
        slots = [[opcode, 0, 0, 0, 16 if opcode in SWAPS else 0, 0, 0, 0]]
        if opcode == 0x18:
            slots.append([0] * 8)
        yield row(f"opcode {opcode:02x}", b"".join(map(bytes, slots)), opcode_told(opcode))


# How many bytes of exits there are, and the verdict: a file of more than 32,784 bytes is not read to its end.
LENGTHS = [
    (7, "D1 0"),
    (8, "V20 0"),
    (8 * 4096, "V14 1"),
    (8 * 4096 + 1, "D1 0"),
    (8 * 4097, "D3 0"),
    (8 * 4099, "D3 0"),
    (8 * 4099 + 1, "D1 0"),
]


def lengths():
    for length, why in LENGTHS:
        exits = code_of([EXIT] * (length // 8 + 1))
        yield row(f"{length} bytes", exits[:length], f"refused {why}\n")


def refusals():
    for slots, slot, why in REFUSALS:
        code = b"".join(map(bytes, slots))
        yield row(f"{why} at {slot}", code, f"refused {why} {slot}\n")
    yield from opcodes()
    yield from lengths()


# How much of the image of `indexed_byte` is left, and the verdict. Fewer than 4 bytes of it are no mark of an image, but raw code.
CUTS = [
    (0, "D2 0"),
    (3, "D1 0"),
    (4, "I1"),
    (8, "I1"),
    (15, "I1"),
    (16, "D2 0"),
    (17, "D1 0"),
    (24, "V13 0"),
    (32, "V13 1"),
    (40, "V13 2"),
    (47, "D1 0"),
    (48, "V13 3"),
]

# A byte of its head that is changed, what it is changed to, and the verdict.
HEADS = [(4, 0, "I3"), (4, 3, "I3"), (4, 255, "I3"), (5, 3, "I4"), (6, 1, "I4"), (7, 1, "I4"), (10, 2, "I5"), (14, 2, "I5")]


def images():
    whole = image(256, 0, INDEXED)
    for left, why in CUTS:
        yield row(f"the first {left}", whole[:left], f"refused {why}\n")
    yield row("all", whole, accepted(5), INDEXED)
    for place, byte, why in HEADS:
        yield row(f"byte {place}", whole[:place] + bytes([byte]) + whole[place + 1 :], f"refused {why}\n")
    yield row("version 2", whole[:4] + bytes([2]) + whole[5:], accepted(5), INDEXED)
    yield row("a resolver", whole[:5] + bytes([2]) + whole[6:], accepted(5), INDEXED)


VERDICTS = {
    "calls": calls,
    "forms": forms,
    "images": images,
    "joins": joins,
    "programs": programs,
    "refusals": refusals,
}
RUNS = {
    "accesses": accesses,
    "helpers": helpers,
    "inputs": inputs,
    "jumps": jumps,
    "operations": operations,
    "runs": runs,
    "tables": tables,
}


def main(folder):
    for name, rows in {**VERDICTS, **RUNS}.items():
        lines, told = zip(*rows())
        names = [line.partition("|")[0] for line in lines]
        (folder / f"{name}.rows").write_text("".join(f"{line}\n" for line in lines))
        (folder / f"{name}.told").write_text("".join(f"{name}\n{text}" for name, text in zip(names, told)))


if __name__ == "__main__":
    parser = argparse.ArgumentParser(description=__doc__, formatter_class=argparse.RawDescriptionHelpFormatter)
    parser.add_argument("--into", type=Path, default=HERE, metavar="FOLDER", help="the folder to write into, in place of this one")
    main(parser.parse_args().into)
