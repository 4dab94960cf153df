#!/usr/bin/env python3
"""Prints what the tests of shard files compare with, worked out by another way than the store's.

Files are built byte by byte here: a body is cut, blocks are appended one after another, and each place is
where the file ended when the block or digest was appended. Digests are hashlib's, and parity is golden_code's.
"""

import hashlib

from golden_code import all_blocks, data_blocks

STRIPE = 1 << 20
SETS = [(4, 2), (5, 2), (8, 4), (16, 4)]
LENGTHS = [1, STRIPE - 1, STRIPE, STRIPE + 1, 2 * STRIPE, 16 * STRIPE]


def cut(body):
    while body:
        yield body[:STRIPE]
        body = body[STRIPE:]


def shard(blocks):
    """The file of a shard's blocks, where each block and each digest begins, and its root."""
    file, starts, table_starts = b"", [], []
    for block in blocks:
        starts.append(len(file))
        file += block
    table = b""
    for block in blocks:
        table_starts.append(len(file) + len(table))
        table += hashlib.sha256(block).digest()
    return file + table, starts, table_starts, hashlib.sha256(table).digest()


def row(drives, parity, length):
    stripes = list(cut(bytes(length)))
    blocks = [data_blocks(stripe, drives - parity)[0] for stripe in stripes]
    file, starts, digests, _ = shard(blocks)
    return [
        f"({drives}, {parity}, {length}, {i}, {starts[i]}, {len(blocks[i])}, {digests[i]}, {len(file)}),"
        for i in sorted({0, len(blocks) - 1})
    ]


def array(data):
    return "[" + ", ".join(f"0x{byte:02x}" for byte in data) + "]"


print("// Drives, parity, the length of a body; then a stripe, its block's place and length, its digest's place; the file's length.")
for drives, parity in SETS:
    for length in LENGTHS:
        print("\n".join(row(drives, parity, length)))
print("// The root of no block.")
print(f"const NO_BLOCK: [u8; 32] = {array(shard([])[3])};")
print("// `hello` over 4 drives with 2 of parity: each shard's block, its digest, and the root.")
for block in all_blocks(b"hello", 4, 2):
    file, _, _, root = shard([block])
    print(f"({array(block)}, {array(file[len(block):])}, {array(root)}),")
