#!/usr/bin/env python3
"""Prints rows of crates/trial_codes/stdin: products, sums, parity and digests, worked out by Python alone.

Products are by long multiplication and parity by Lagrange's formula (golden_code), digests are hashlib's. The rows
that no arithmetic gives, of tables of others and worked by hand, stand in the file between these.
"""

import hashlib
from math import comb

from golden_code import all_blocks, inverse, product

WIDTHS = (0, 1, 31, 32, 63, 64, 65, 100, 1000)
WEIGHTS = (0, 1, 2, 142, 29, 255, 116, 3)
OTHERS = (7, 0, 200, 1, 128, 90, 16, 254)
# The coefficients of the polynomials of two columns.
FIRST = (0x9D, 0x01, 0xFF, 0x00, 0x53, 0x80, 0x1D, 0x7E, 0xC4, 0x02, 0x35, 0xE8, 0x6B, 0xB1, 0x0F)
SECOND = (0x00, 0xA7, 0x3C, 0xF1, 0x00, 0x1B, 0x64, 0xD2, 0x8E, 0xFF, 0x47, 0x90, 0x05, 0xBA, 0x71)
# Runs of one length between others, on both sides of the lengths where the padding takes a chunk more.
LENGTHS = [55] * 4 + [56] + [64] * 5 + [120] * 3 + [0] + [128] * 3 + [63] * 8
TABLE = [[product(a, b) for b in range(256)] for a in range(256)]


def some_bytes():
    """The high byte of each state of a linear congruential generator."""
    state, found = 1, []
    for _ in range(8000):
        state = (state * 1664525 + 1013904223) % 2**32
        found.append(state >> 24)
    return bytes(found)


def sha256(content):
    return hashlib.sha256(content).digest()


def powers(element, count):
    found = [1]
    while len(found) < count:
        found.append(TABLE[found[-1]][element])
    return found


def value(coefficients, x):
    """The value of a polynomial."""
    total = 0
    for coefficient in reversed(coefficients):
        total = TABLE[total][x] ^ coefficient
    return total


def weighted(weights, width):
    """The sum over as many blocks of known bytes."""
    return bytes(sums(weights, width, k) for k in range(width))


def sums(weights, width, k):
    total = 0
    for index, weight in enumerate(weights):
        total ^= TABLE[weight][KNOWN[index * width + k]]
    return total


def field():
    print("gf256 inverses =", bytes(inverse(a) for a in range(1, 256)).hex())
    print("gf256 products =", sha256(bytes(b for row in TABLE for b in row)).hex())
    print("gf256 powers 300 =", sha256(bytes(b for a in range(256) for b in powers(a, 300))).hex())


def lanes():
    for width in WIDTHS:
        print(f"code_lanes sum_into {width} {bytes(WEIGHTS).hex()} = {sha256(weighted(WEIGHTS, width)).hex()}")
        both = f"{sha256(weighted(OTHERS, width)).hex()} {sha256(weighted(WEIGHTS, width)).hex()}"
        print(f"code_lanes two_sums_into {width} {bytes(OTHERS + WEIGHTS).hex()} = {both}")


def folds():
    for count in (2, 4, 8):
        for width in WIDTHS[3:]:
            for exponent in range(count):
                made = " ".join(f"{powers(count + row, exponent + 1)[exponent]}*{width}" for row in range(count))
                print(f"code_lanes fold_into {count} {count} {width} {exponent} = runs {joined(made)}")


def joined(runs):
    """Neighbouring runs of one byte are one run."""
    found = []
    for run in runs.split():
        byte, times = map(int, run.split("*"))
        if found and found[-1][0] == byte:
            found[-1][1] += times
        else:
            found.append([byte, times])
    return " ".join(f"{byte}*{times}" for byte, times in found)


def wide():
    body = bytes(place * 7 % 251 for place in range(600))
    parity = b"".join(all_blocks(body, 4, 2)[2:])
    print(f"let body = {body.hex()}")
    print(f"let parity = {parity.hex()}")
    print(f"poly_code encode 4 2 300 body = {parity.hex()}")
    print(f"poly_code rebuild 4 2 0 0203 parity = {body[:300].hex()}")
    print(f"poly_code rebuild 4 2 1 0203 parity = {body[300:].hex()}")


def sets():
    for drives in range(4, 17):
        for parity in range(1, drives // 2 + 1):
            data = drives - parity
            stripe = bytes(value(column[:data], row) for row in range(drives) for column in (FIRST, SECOND))
            blocks, rest = stripe[: 2 * data], stripe[2 * data :]
            choices = comb(drives, parity)
            print(f"poly_code encode {drives} {parity} 2 {blocks.hex()} = {rest.hex()}")
            print(f"poly_code every {drives} {parity} {stripe.hex()} = {choices} choices, {choices * parity} blocks back")


def mixed():
    for first in range(6):
        lengths = LENGTHS[first : first + 17]
        for count in range(18):
            blocks = [KNOWN[128 * i : 128 * i + long] for i, long in enumerate(lengths[:count])]
            words = "".join(f" {long}" for long in lengths[:count])
            print(f"hash_lanes mixed{words} = {of_all(blocks)}")


def of_all(blocks):
    """The SHA-256 of the digests of all blocks."""
    return sha256(b"".join(map(sha256, blocks))).hex()


def equal():
    plans = [(size, 7) for size in range(201)] + [(size, count) for size in (100, 0) for count in range(18)]
    for size, count in plans:
        print(f"hash_lanes equal {size} {count} = {of_all([KNOWN[size * i : size * i + size] for i in range(count)])}")


KNOWN = some_bytes()
EXAMPLES = (
    b"abc",
    b"abcdbcdecdefdefgefghfghighijhijkijkljklmklmnlmnomnopnopq",
    b"abcdefghbcdefghicdefghijdefghijkefghijklfghijklmghijklmnhijklmnoijklmnopjklmnopqklmnopqrlmnopqrsmnopqrstnopqrstu",
    b"",
)


def examples():
    """Each example in each lane, beside other blocks of its length, and beside longer ones."""
    print(f"let longer = {KNOWN[:500].hex()}")
    for number, message in enumerate(EXAMPLES):
        print(f"let example{number} = '{message.decode()}'")
        print(f"let other{number} = {KNOWN[: len(message)].hex() or chr(39) * 2}")
        for name, other in ((f"other{number}", KNOWN[: len(message)]), ("longer", KNOWN[:500])):
            for lane in range(4):
                words, digests = [name] * 4, [sha256(other)] * 4
                words[lane], digests[lane] = f"example{number}", sha256(message)
                print(f"hash_lanes blocks {' '.join(words)} = {b''.join(digests).hex()}")


if __name__ == "__main__":
    for group in (field, lanes, folds, wide, sets, examples, mixed, equal):
        group()
