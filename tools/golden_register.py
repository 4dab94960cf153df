#!/usr/bin/env python3
"""Prints two register files, worked out from the table in docs/FORMATS.md alone, as arrays of Rust.

They stand in crates/trial_records/stdin, in hex digits. Run it again with `python3 tools/golden_register.py`.
"""

import hashlib
import struct

from golden_fields import show, version_id


def stamp(term, seq):
    return struct.pack(">QQ", term, seq)


def content(octets):
    return struct.pack(">I", len(octets)) + octets


def register(base, following):
    body = bytes([1]) + base
    body += bytes([0]) if following is None else bytes([1]) + following
    return b"OREG" + body + hashlib.sha256(b"OREG" + body).digest()


absent = stamp(0, 0) + stamp(0, 0) + content(b"")
base = stamp(2, 5) + stamp(1, 4) + content(b"ab")
adds = bytes([1]) + version_id(3, 7, 9) + hashlib.sha256(b"print").digest()
following = (
    stamp(2**48 - 1, 2**62 - 1) + stamp(3, 9) + stamp(1, 4) + adds + content(b"xyz")
)

show("SMALLEST", register(absent, None))
show("FULL", register(base, following))
