#!/usr/bin/env python3
"""Prints bucket records and part records, worked out from the tables in docs/FORMATS.md alone, as arrays of Rust.

They stand in crates/trial_records/stdin, in hex digits; with the word `parts` it prints those of parts. Run it
again with `python3 tools/golden_book.py [parts]`.
"""

import hashlib
import struct
import sys

from golden_fields import show, version_id


def bucket(created, mode):
    """The second at which the bucket was made, and its mode: 0 Never, 1 Enabled, 2 Suspended."""
    return struct.pack(">QB", created, mode)


def part(data_id, length, body, modified):
    """The id, the print (here the SHA-256 of the body's name), the length, the MD5 of the body, and the moment."""
    print_of = hashlib.sha256(b"print").digest()
    return data_id + print_of + struct.pack(">Q", length) + hashlib.md5(body).digest() + struct.pack(">Q", modified)


def buckets():
    show("MADE", bucket(784_111_777, 0))
    show("ENABLED", bucket(0, 1))
    show("LATEST", bucket(253_402_300_799, 2))


def parts():
    show("PART", part(version_id(1, 5, 7), 5_242_880, b"a part", 784_111_777))
    show("LONGEST", part(version_id(2**48 - 1, 63, 2**62 - 1), 2**64 - 1, b"", 253_402_300_799))
    # The MD5 of the joined MD5s of these two parts.
    show("JOINED_MD5", hashlib.md5(hashlib.md5(b"a part").digest() + hashlib.md5(b"").digest()).digest())
    show("NO_PART_MD5", hashlib.md5(b"").digest())


if sys.argv[1:] == ["parts"]:
    parts()
else:
    buckets()
