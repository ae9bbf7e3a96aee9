#!/usr/bin/env python3
"""Writes the images that the program `bench` times: straight.img, branchy.img, memory.img and calls.img, each of some thousand instructions in rounds of
a few, and mixed.img and accesses.img, of a thousand in no order."""
import argparse
import struct
from pathlib import Path

HERE = Path(__file__).resolve().parent

EXIT = (0x95, 0, 0, 0, 0)


def slot(opcode, dst=0, src=0, offset=0, imm=0):
    return struct.pack("<BBhi", opcode, src << 4 | dst, offset, imm)


def image(in_len, out_len, slots):
    head = b"RBPF" + bytes([1, 0, 0, 0]) + struct.pack("<II", in_len, out_len)
    return head + b"".join(slot(*fields) for fields in slots)


def straight():
    """Arithmetic on three registers, one instruction after another."""
    code = [(0xB7, 0, 0, 0, 1), (0xBF, 6, 2), (0xB7, 7, 0, 0, 7)]
    rounds = [
        (0x07, 0, 0, 0, 3),  # add 3
        (0x0F, 0, 6),  # add r6
        (0xAF, 6, 0),  # r6 ^= r0
        (0x27, 0, 0, 0, 5),  # multiply by 5
        (0x77, 6, 0, 0, 1),  # r6 >>= 1
        (0x1F, 0, 7),  # subtract r7
        (0x07, 7, 0, 0, 1),  # r7 += 1
        (0x47, 0, 0, 0, 1),  # or 1
    ]
    for _ in range(500):
        code += rounds
    return image(64, 64, code + [EXIT])


def branchy():
    """A jump on every second instruction: half of them are taken."""
    code = [(0xB7, 0), (0xBF, 6, 2)]
    for k in range(1300):
        taken = k % 2 == 0
        code += [
            (0x07, 6, 0, 0, 1),  # r6 += 1
            (0x35 if taken else 0xA5, 6, 0, 1, 1),  # at least 1, or below 1
            (0x07, 0, 0, 0, 1),  # passed over, or done
        ]
    return image(64, 64, code + [EXIT])


def memory():
    """Loads of the input and the stack, and stores to the stack and the output, of every size."""
    code = [(0xB7, 0), (0x7A, 10, 0, -8, 5)]
    rounds = [
        (0x71, 6, 1, 3),  # r6 = byte of the input
        (0x73, 3, 6, 5),  # byte of the output = r6
        (0x79, 7, 10, -8),  # r7 = double of the stack
        (0x0F, 0, 7),  # add r7
        (0x7B, 10, 0, -16),  # double of the stack = r0
        (0x61, 8, 1, 4),  # r8 = word of the input
        (0x63, 3, 8, 8),  # word of the output = r8
        (0x69, 9, 3, 8),  # r9 = half of the output
        (0x6B, 10, 9, -24),  # half of the stack = r9
        (0x0F, 0, 9),  # add r9
    ]
    for _ in range(400):
        code += rounds
    return image(64, 64, code + [EXIT])


def calls():
    """The machine's own calls: copies of 16 bytes from the input to the output and from there to the stack, a fill and a comparison."""
    code = [(0xBF, 6, 1), (0xBF, 7, 3)]
    rounds = [
        (0xBF, 1, 7),  # r1 = output
        (0xBF, 2, 6),  # r2 = input
        (0xB7, 3, 0, 0, 16),
        (0x85, 0, 0, 0, 1),  # copy
        (0xBF, 1, 10),
        (0x07, 1, 0, 0, -16),  # r1 = the last 16 bytes of the stack
        (0xBF, 2, 7),  # r2 = output
        (0xB7, 3, 0, 0, 16),
        (0x85, 0, 0, 0, 1),  # copy
        (0xBF, 1, 7),  # r1 = output
        (0xB7, 2, 0, 0, 5),
        (0xB7, 3, 0, 0, 8),
        (0x85, 0, 0, 0, 2),  # fill
        (0xBF, 1, 6),  # r1 = input
        (0xBF, 2, 7),  # r2 = output
        (0xB7, 3, 0, 0, 8),
        (0x85, 0, 0, 0, 3),  # same
    ]
    for _ in range(200):
        code += rounds
    return image(64, 64, code + [EXIT])


def draws(seed):
    """Numbers below what is asked for: the high half of a linear congruential generator's state, by the multiplier of Knuth's MMIX."""
    state = seed
    def draw(below):
        nonlocal state
        state = (state * 6364136223846793005 + 1442695040888963407) % 2**64
        return (state >> 32) % below
    return draw


def mixed():
    """Arithmetic of every kind on five registers, drawn anew for each instruction: 1,000 slots."""
    draw, registers = draws(7), (0, 6, 7, 8, 9)
    code = [(0xB7, r, 0, 0, 3 * r + 1) for r in registers]
    while len(code) < 999:
        operation, dst, src = draw(13) << 4, registers[draw(5)], registers[draw(5)]
        is_narrow = draw(4) == 0 and operation != 0xC0  # DPDK has no signed shift of 32 bits
        width = 0x04 if is_narrow else 0x07
        if operation == 0x80:
            code.append((operation | width, dst))  # negation
        elif operation in (0x30, 0x90) or draw(2):
            shifts = operation in (0x60, 0x70, 0xC0)
            code.append((operation | width, dst, 0, 0, 1 + draw(31 if shifts else 1000)))
        elif operation in (0x60, 0x70, 0xC0):
            code.append((operation | width, dst, 0, 0, 1 + draw(31)))
        else:
            code.append((operation | width | 0x08, dst, src))
    return image(64, 64, code + [EXIT])


def accesses():
    """Loads of input, stack and output and stores to stack and output of every size, drawn anew for each instruction: 1,000 slots."""
    draw, registers = draws(2), (0, 5, 6, 7, 8, 9)
    code = [(0xB7, r, 0, 0, r) for r in registers] + [(0x7B, 10, 0, -8 * (k + 1)) for k in range(8)]
    while len(code) < 999:
        base, k = (1, 3, 10)[draw(3)], draw(8)
        # A place has one size, since DPDK lets no load of the stack be wider than the store before it.
        size, bytes_ = ((0x10, 1), (0x08, 2), (0x00, 4), (0x18, 8))[k % 4]
        offset = 8 * k + bytes_ * draw(8 // bytes_) - (64 if base == 10 else 0)
        if base == 1 or draw(2):
            code.append((0x61 | size, registers[draw(6)], base, offset))
        else:
            code.append((0x63 | size, base, registers[draw(6)], offset))
    return image(64, 64, code + [EXIT])


MAKERS = {
    "straight": straight,
    "branchy": branchy,
    "memory": memory,
    "calls": calls,
    "mixed": mixed,
    "accesses": accesses,
}


def main(folder):
    for name, make in MAKERS.items():
        (folder / f"{name}.img").write_bytes(make())


if __name__ == "__main__":
    parser = argparse.ArgumentParser(description=__doc__, formatter_class=argparse.RawDescriptionHelpFormatter)
    parser.add_argument("--into", type=Path, default=HERE, metavar="FOLDER", help="the folder to write into, in place of this one")
    main(parser.parse_args().into)
