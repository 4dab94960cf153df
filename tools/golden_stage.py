#!/usr/bin/env python3
"""Prints rows of crates/trial_bodies/stdin: what stages leave on the drives of a set, and what readers give of it.

They are worked out from docs/FORMATS.md and from the order of calls in the READMEs of put_stage and get_read: the shard
files and the manifests here, the code in golden_code. It needs Python alone. Rows that need no bytes worked out stand in
the file between these.
"""

import hashlib
import struct

from golden_code import all_blocks
from golden_fields import version_id

STRIPE = 1048576
NAME = b"k/pic/a"
SETS = ((4, 2), (5, 2), (8, 4), (16, 8))
LENGTHS = (0, 1, 5, STRIPE, STRIPE + 1)
WINDOWS = ((5, 2, 6 * STRIPE + 5), (6, 2, 3 * STRIPE + 1))
ROWS = (b"\x41\x42", b"\x00\x80")
# The drives of four that are out, one that is lost, and those that take a stage then.
SERVED = ((0, None, 0b1111), (0, 1, 0b1101), (0b0100, None, 0b1011))
# The drives and the parity of a set, and the length of a body that is read: around a stripe, two and sixteen.
SIZES = (
    (4, 1, STRIPE + 1),
    (4, 2, 0),
    (4, 2, STRIPE - 1),
    (4, 2, 2 * STRIPE),
    (5, 2, 1),
    (5, 2, STRIPE + 1),
    (5, 2, 5 * STRIPE + 1),
    (8, 4, STRIPE),
    (16, 1, STRIPE + 1),
    (16, 8, 2 * STRIPE),
    (16, 4, 16 * STRIPE),
)
FIRST, SECOND = 0, STRIPE // 2
# Which drives' blocks at which place are damaged in a body of a stripe and a byte, how many bytes are read, and whether
# they come.
DAMAGES = (
    (((0, FIRST), (1, SECOND), (2, SECOND)), STRIPE + 1, True),
    (((0, SECOND), (1, FIRST), (2, FIRST)), STRIPE + 1, True),
    (((0, FIRST), (2, FIRST)), STRIPE + 1, True),
    (((0, FIRST), (2, FIRST), (3, FIRST)), STRIPE + 1, False),
    (((0, SECOND), (2, SECOND)), STRIPE + 1, True),
    (((0, SECOND), (2, SECOND), (3, SECOND)), STRIPE + 1, False),
    (((0, SECOND), (1, SECOND), (2, SECOND)), STRIPE, True),
    (((0, SECOND), (1, SECOND), (2, SECOND)), 1, True),
)
# A body's length, the span that is read of it, a byte of the first drive's shard file that is damaged, and how many steps
# and pieces there are.
STORIES = (
    (5, (1, 3), None, 6, 1),
    (5, (5, 0), None, 1, 0),
    (5, (0, 5), 0, 8, 1),
    (STRIPE + 1, (0, STRIPE + 1), None, 8, 2),
    (2 * STRIPE + 1, (0, 2 * STRIPE + 1), None, 8, 2),
    (2 * STRIPE + 1, (0, 2 * STRIPE + 1), STRIPE // 2, 14, 3),
)
LARGE = 33 * STRIPE + 3

IDENTITY = version_id(1, 5, 7)
SHARD = f"s/{IDENTITY.hex()}"
MANIFEST = f"m/{IDENTITY.hex()}"


def sha256(content):
    return hashlib.sha256(content).digest()


def some_body(length):
    return (bytes(range(251)) * (length // 251 + 1))[:length]


def shards_of(body, drives, parity):
    stripes = [all_blocks(body[at : at + STRIPE], drives, parity) for at in range(0, len(body), STRIPE)]
    return [[blocks[r] for blocks in stripes] for r in range(drives)]


def table(shard):
    return b"".join(map(sha256, shard))


def file_of(shard):
    return b"".join(shard) + table(shard)


def roots_of(shards):
    return b"".join(sha256(table(shard)) for shard in shards)


def manifest_of(drives, parity, parts):
    """The file of a manifest, and the print, of parts that are an id, a length and the joined roots each."""
    head = struct.pack(">BBH", drives, parity, len(parts))
    cuts = [struct.pack(">Q", length) + roots for _, length, roots in parts]
    named = b"".join(identity + cut for (identity, _, _), cut in zip(parts, cuts))
    sealed = b"OMAN" + struct.pack(">BH", 1, len(NAME)) + NAME + head + named
    return sealed + sha256(sealed), sha256(head + b"".join(cuts))


class Body:
    """A body on the drives of a set."""

    def __init__(self, drives, parity, content):
        self.drives, self.parity, self.content = drives, parity, content
        self.shards = shards_of(content, drives, parity)
        self.files = [file_of(shard) for shard in self.shards]
        self.manifest, self.print = manifest_of(drives, parity, [(IDENTITY, len(content), roots_of(self.shards))])

    def windows(self):
        """How many fills it takes: whole stripes that fill four lanes of digests, and the last, shorter stripe alone."""
        stripes = 1 if self.drives % 4 == 0 else 2 if self.drives % 2 == 0 else 4
        whole, rest = divmod(len(self.content), STRIPE)
        return -(-whole // stripes) + (rest > 0)

    def answer(self, took):
        md5 = hashlib.md5(self.content).hexdigest()
        return f"{self.print.hex()}, {len(self.content)} bytes, md5 {md5}, took {took}"


def told(content):
    """The bytes of a piece, or their number and their SHA-256 where there are many."""
    if len(content) <= 400:
        return content.hex() or "nothing"
    return f"{len(content)} bytes, {sha256(content).hex()}"


def fresh(drives, parity, out=0):
    data = drives - parity
    print(f"drives new {drives} {parity} {out} = reads {data}, writes {data + (data == parity)}")


def begin(length, word="period", md5="none"):
    print(f"put_stage body {md5} {length} ends {length} {word} = {'fill' if length else 'step'}")


def put(body, word="period"):
    """Fresh drives, and a stage of the body to its end."""
    fresh(body.drives, body.parity)
    begin(len(body.content), word)
    calls = body.drives * (body.windows() + 6)
    print(f"put_stage run = {body.windows()} fills, {calls} calls")
    print(f"put_stage finish = {body.answer(2**body.drives - 1)}")


def digest_row(body, places):
    """The digest of the files of these drives, on each the shard file and then the manifest."""
    files = b"".join(body.files[place] + body.manifest for place in places)
    print(f"drives digest {' '.join(map(str, places))} = {sha256(files).hex()}")


def begin_read(body, at, length, slot=5):
    print(f"get_read new {slot} {body.print.hex()} {at} {length} = no manifest")


def read(body, length):
    begin_read(body, 0, length)
    print(f"get_read read 1000 = {told(body.content[:length])}; done")


def words():
    """The bytes that rows have by a name."""
    print(f"let hello_md5 = {hashlib.md5(b'hello').hexdigest()}")
    print(f"let empty_md5 = {hashlib.md5(b'').hexdigest()}")
    roots = [b"".join(bytes([first + r]) * 32 for r in range(4)) for first in (0x10, 0x20)]
    parts = [(version_id(1, 5, 7), 5368709120, roots[0]), (version_id(2, 0, 1), 11, roots[1])]
    for name, (manifest, digest) in (
        ("hello", manifest_of(4, 2, [hello_part])),
        ("parts", manifest_of(4, 2, parts)),
        ("twice", manifest_of(4, 2, [hello_part, hello_part])),
    ):
        print(f"let {name}_manifest = {manifest.hex()}")
        print(f"let {name}_print = {digest.hex()}")
    return manifest_of(4, 2, parts)


def served(wanted, begins, fills, each, files):
    """A stage on four drives of which one is out or lost; `each` is the number of calls on a drive that takes all."""
    for out, gone, took in SERVED:
        fresh(4, 2, out)
        if gone is not None:
            print(f"drives follow {gone} lost = faults 0")
        print(begins)
        drives = took.bit_count()
        print(f"put_stage run = {fills} fills, {each * drives + (gone is not None)} calls")
        print(f"put_stage finish = {wanted}, took {took}")
        for place in range(4):
            for name, found in files[place]:
                print(f"drives file {place} {name} = {found if took >> place & 1 else 'absent'}")


def stages_of_hello():
    begins = "put_stage body hello_md5 5 ends 5 'hello' = fill"
    files = [((SHARD, hello.files[r].hex()), (MANIFEST, hello.manifest.hex())) for r in range(4)]
    served(hello.answer("").rsplit(",", 1)[0], begins, 1, 7, files)


def stages_of_parts(parts):
    manifest, digest = parts
    begins = "put_stage manifest 09*16 parts_manifest = step"
    files = [((MANIFEST, manifest.hex()), (SHARD, "absent"))] * 4
    served(f"{digest.hex()}, {5368709120 + 11} bytes, md5 {'09' * 16}", begins, 0, 3, files)


def stages_of_rows():
    for content in ROWS:
        body = Body(4, 2, content)
        put(body, content.hex())
        for place in range(4):
            print(f"drives file {place} {SHARD} = {body.files[place].hex()}")


def stages():
    for drives, parity, length in [(*plan, length) for plan in SETS for length in LENGTHS] + list(WINDOWS):
        body = Body(drives, parity, some_body(length))
        put(body)
        digest_row(body, range(drives))


def fails_at(place, step):
    """The number of the call of a drive that others lose before a step of a stage of two windows, or none."""
    calls = [1 + place, 6 + place, *range(10 + 6 * place, 16 + 6 * place)]
    return next((number for number, at in enumerate(calls) if at in (step, step + 1)), None)


def stages_beside_others():
    """Before each step of a stage of two windows others come, and lose a drive over two steps."""
    body = Body(4, 2, some_body(STRIPE + 1))
    for place in (1, 2):
        for step in range(35):
            failed = fails_at(place, step)
            fresh(4, 2)
            begin(STRIPE + 1)
            calls = 32 if failed is None else 25 + failed
            print(f"put_stage beside {place} {step} = 2 fills, {calls} calls")
            print(f"put_stage finish = {body.answer(15 if failed is None else 15 ^ 1 << place)}")
            print(f"drives count {place} = {counted(failed)}")
            digest_row(body, [at for at in range(4) if failed is None or at != place])


def counted(failed):
    """The calls of a drive by kind, of which the one of this number failed: appends, syncs and renames in their order."""
    kinds = "aaasasrr"[: 8 if failed is None else failed + 1]
    return f"0 0 {kinds.count('a')} {kinds.count('s')} {kinds.count('r')} 0 0 0 faults {int(failed is not None)}"


def reads_of_rows():
    for content in ROWS:
        body = Body(4, 2, content)
        for first in range(4):
            for second in range(first + 1, 4):
                put(body, content.hex())
                print(f"drives follow {first} lost = faults 0")
                print(f"drives follow {second} lost = faults 0")
                read(body, 2)


def reads_of_sizes():
    for drives, parity, length in SIZES:
        body = Body(drives, parity, some_body(length))
        put(body)
        for place in range(parity):
            print(f"drives damage {place} {SHARD} 0 = bytes {len(body.files[place])}")
        read(body, length)


def hurt(block):
    """A block with the lowest bit of its first byte changed."""
    return bytes([block[0] ^ 1]) + block[1:]


def cause(block):
    return f"digest {sha256(block).hex()} but {sha256(hurt(block)).hex()}"


def reads_of_stripes():
    body = Body(4, 2, some_body(STRIPE + 1))
    for damages, length, comes in DAMAGES:
        put(body)
        causes = ["good"] * 4
        for place, at in damages:
            print(f"drives damage {place} {SHARD} {at} = bytes {len(body.files[place])}")
            causes[place] = cause(body.shards[place][at // (STRIPE // 2)])
        if comes:
            read(body, length)
        else:
            begin_read(body, 0, length)
            given = told(body.content[: STRIPE if damages[0][1] else 0])
            print(f"get_read read 1000 = {given}; shard quorum, {', '.join(causes)}")


def reads_of_stories():
    for long, (at, length), damaged, steps, pieces in STORIES:
        body = Body(4, 2, some_body(long))
        put(body)
        if damaged is not None:
            print(f"drives damage 0 {SHARD} {damaged} = bytes {len(body.files[0])}")
        begin_read(body, at, length)
        given = told(body.content[at : at + length])
        print(f"get_read run 1000 = {steps} steps, {pieces} pieces, {given}; done")


def reads_by_calls():
    """Each call of a reader of two stripes, and of a window of two stripes and a third one."""
    for whole in (1, 2):
        body = Body(4, 2, some_body(whole * STRIPE + 1))
        put(body)
        begin_read(body, 0, len(body.content))
        block, digests = whole * STRIPE // 2, len(table(body.shards[0]))
        print("get_read step = 0 size manifest 0 0: more")
        print(f"get_read step = 0 read manifest 0 {len(body.manifest)}: more")
        for place, end in ((0, "more"), (1, f"piece {told(body.content[:-1])}")):
            print(f"get_read step = {place} read shard {block + 1} {digests}: more")
            print(f"get_read step = {place} read shard 0 {block}: {end}")
        print(f"get_read step = 0 read shard {block} 1: more")
        print(f"get_read step = 1 read shard {block} 1: piece {body.content[-1:].hex()}")
        print("get_read step = no call: done")
        for place, (size, reads) in enumerate(((1, 4), (0, 3), (0, 0), (0, 0))):
            appends = body.windows() + 2
            print(f"drives count {place} = {size} {reads} {appends} 2 2 0 0 0 faults 0")


def large():
    body = Body(6, 2, some_body(LARGE))
    put(body)
    print("drives follow 1 lost = faults 0")
    read(body, LARGE)


def damaged_hello():
    print("get_read read 9 = nothing; shard quorum, " + ", ".join(
        (cause(hello.shards[0][0]), "good", cause(hello.shards[2][0]), "failed 0 1")
    ))


hello = Body(4, 2, b"hello")
hello_part = (IDENTITY, 5, roots_of(hello.shards))
GROUPS = (
    stages_of_hello,
    stages_of_rows,
    stages,
    stages_beside_others,
    reads_of_rows,
    reads_of_sizes,
    reads_of_stripes,
    reads_of_stories,
    reads_by_calls,
    large,
    damaged_hello,
)

if __name__ == "__main__":
    stages_of_parts(words())
    for group in GROUPS:
        print(f"# {group.__name__}")
        group()
