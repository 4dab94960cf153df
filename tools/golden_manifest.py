#!/usr/bin/env python3
"""Prints two manifests and their prints, worked out from the tables in docs/FORMATS.md alone, as arrays of Rust.

They stand in crates/trial_records/stdin, in hex digits. Run it again with `python3 tools/golden_manifest.py`.
"""

import hashlib
import struct

from golden_fields import show, version_id


def roots(of_part, drives):
    """The roots of a part: 32 times the part's number in the high and the drive's in the low four bits."""
    return [bytes([16 * of_part + drive]) * 32 for drive in range(drives)]


def manifest(name, drives, parity, parts):
    body = struct.pack(">BH", 1, len(name)) + name
    body += struct.pack(">BBH", drives, parity, len(parts))
    for part_id, length, part_roots in parts:
        body += part_id + struct.pack(">Q", length) + b"".join(part_roots)
    return b"OMAN" + body + hashlib.sha256(b"OMAN" + body).digest()


def body_print(drives, parity, parts):
    text = struct.pack(">BBH", drives, parity, len(parts))
    for _, length, part_roots in parts:
        text += struct.pack(">Q", length) + b"".join(part_roots)
    return hashlib.sha256(text).digest()


smallest = [(version_id(1, 5, 7), 0, [])]
two = [
    (version_id(1, 5, 7), 5_368_709_120, roots(1, 4)),
    (version_id(2, 0, 1), 11, roots(2, 4)),
]
show("SMALLEST", manifest(b"", 0, 0, smallest))
show("SMALLEST_PRINT", body_print(0, 0, smallest))
show("TWO_PARTS", manifest(b"k/pic/a", 4, 2, two))
show("TWO_PARTS_PRINT", body_print(4, 2, two))
