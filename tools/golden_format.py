#!/usr/bin/env python3
"""Prints two format files, worked out from the table in docs/FORMATS.md alone, as arrays of Rust.

They stand in crates/trial_registers/stdin. Run it again with `python3 tools/golden_format.py`.
"""

import hashlib
import struct

from golden_fields import show


def format_file(set_id, drives, parity, index, term):
    body = bytes([1]) + set_id + bytes([drives, parity, index]) + struct.pack(">Q", term)
    return b"OFMT" + body + hashlib.sha256(b"OFMT" + body).digest()


show("UNOPENED", format_file(bytes([7] * 16), 4, 2, 1, 0))
show("LAST", format_file(bytes([7] * 16), 4, 2, 1, 2**48 - 1))
