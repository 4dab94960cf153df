"""The erasure code by another way than the store's, for the scripts that print golden files.

Parity is interpolated by Lagrange's formula over the field of 256 elements modulo 0x11D, with products by long
multiplication.
"""


def product(a, b):
    total = 0
    while b:
        if b & 1:
            total ^= a
        a <<= 1
        if a & 0x100:
            a ^= 0x11D
        b >>= 1
    return total


def inverse(a):
    return next(b for b in range(1, 256) if product(a, b) == 1)


def weight(i, point, data):
    """Lagrange's weight of data block i at a point."""
    total = 1
    for j in range(data):
        if j != i:
            total = product(total, product(point ^ j, inverse(i ^ j)))
    return total


def parity_block(blocks, point):
    """The values at a point, column by column: each block is multiplied by a table, and blocks are summed as numbers."""
    total = 0
    for i, block in enumerate(blocks):
        factor = weight(i, point, len(blocks))
        multiplied = block.translate(bytes(product(factor, byte) for byte in range(256)))
        total ^= int.from_bytes(multiplied, "big")
    return total.to_bytes(len(blocks[0]), "big")


def data_blocks(stripe, data):
    size = -(-len(stripe) // data)
    filled = stripe + bytes(size * data - len(stripe))
    return [filled[i * size : (i + 1) * size] for i in range(data)]


def all_blocks(stripe, drives, parity):
    blocks = data_blocks(stripe, drives - parity)
    return blocks + [parity_block(blocks, point) for point in range(drives - parity, drives)]
