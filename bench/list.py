#!/usr/bin/env python3
"""Lists buckets of 1,000 and of 100,000 keys through one `pipe` process, over drives in memory and over folders, of a set of 2+2
drives. For each it prints
  - the first page of 1,000 rows and all pages one after another: rows a second, by the wall clock
  - the same by the delimiter `/`, which makes 100 groups of the keys: each page with how many keys it passes over
  - the pages of versions
  - ListBuckets, in milliseconds, once beside these keys and once in a store of its own without any
  - over folders, the calls of lanes that a page of 1,000 rows makes: those that read files, by what one page more adds to the calls
    of the system (strace; Debian: apt-get install strace), and 64 a drive that give names, as one round of a listing makes them.
    A call that gives names is answered from memory, so strace doesn't see it
Keys have 30 bytes, and bodies one. Without TMPDIR the folders are in memory, where the system has a place for that, since each PUT
waits for 32 fsyncs: then what is measured is calls of the system, and no disk. A page that isn't the one that is due ends it.
With numbers it takes these in place of 1,000 and 100,000: bench/list.py [KEYS..]. 100,000 keys take some minutes to put.
"""

import pathlib
import re
import shutil
import sys
import tempfile
import time

sys.path.insert(0, str(pathlib.Path(__file__).resolve().parent.parent / "tools" / "lib"))
from drive_calls import kinds_of, traced
from pipe_client import Pipe, request_of
from program import prefer_memory, program

PROGRAM = program()
DRIVES, SLOTS, MOST, GROUPS = 4, 64, 1000, 100
# How many requests are given at once: as many as fit into a pipe, with their replies.
AT_ONCE = 100


def key_of(number):
    return f"{number % GROUPS:02}/{number:08}-" + "k" * 18


def must(holds, what):
    if not holds:
        sys.exit(f"list.py: {what}")


def fill(pipe, keys):
    """Puts so many keys, and answers how many a second."""
    must(pipe.ask("PUT", "/bench", b"").status == 200, "the bucket is not made")
    began = time.monotonic()
    for first in range(0, keys, AT_ONCE):
        numbers = range(first, min(keys, first + AT_ONCE))
        pipe.say(b"".join(request_of("PUT", f"/bench/{key_of(number)}", b"x") for number in numbers))
        for number in numbers:
            reply = pipe.reply("PUT")
            must(reply.status == 200, f"PUT of key {number}: {reply}")
    return keys / (time.monotonic() - began)


class Page:
    """A page: its rows, whether there are more, and where the next one begins."""

    def __init__(self, pipe, words, next_one=""):
        reply = pipe.ask("GET", f"/bench?{words}{next_one}")
        must(reply.status == 200, f"a listing by {words}: {reply}")
        self.names = re.findall(rb"<(?:Key|CommonPrefixes><Prefix)>([^<]*)", reply.body)
        self.is_truncated = b"<IsTruncated>true</IsTruncated>" in reply.body
        token, marker, id = (re.search(rb"<Next%s>([^<]*)" % name, reply.body) for name in (b"ContinuationToken", b"KeyMarker", b"VersionIdMarker"))
        self.next_one = f"&continuation-token={token[1].decode()}" if token else ""
        if marker:
            self.next_one = f"&key-marker={marker[1].decode()}" + (f"&version-id-marker={id[1].decode()}" if id else "")


def walk(pipe, words):
    """All rows of a listing, page by page."""
    names, page = [], Page(pipe, words)
    while True:
        names += page.names
        if not page.is_truncated:
            return names
        page = Page(pipe, words, page.next_one)


def seconds_of(work, times=3):
    """The least seconds of several times, and what the last one answered."""
    best, told = None, None
    for _ in range(times):
        began = time.monotonic()
        told = work()
        best = min(best or 1e9, time.monotonic() - began)
    return best, told


def lists(name, pipe, keys):
    """Prints what pages take."""
    due = sorted(key_of(number).encode() for number in range(keys))
    groups = sorted({key.partition(b"/")[0] + b"/" for key in due})
    for what, words, wanted in (("flat", "list-type=2", due), ("by a delimiter", "list-type=2&delimiter=/", groups), ("versions", "versions", due)):
        first, page = seconds_of(lambda words=words: Page(pipe, words))
        must(page.names == wanted[:MOST], f"{name}, {what}: another first page")
        line = f"{name}, {what}: a page of {len(page.names):,} rows in {first * 1000:.1f} ms, {len(page.names) / first:,.0f} rows a second"
        if len(wanted) < keys:
            line += f", over {keys:,} keys"
        if page.is_truncated:
            whole, names = seconds_of(lambda words=words: walk(pipe, words), 1)
            must(names == wanted, f"{name}, {what}: other pages")
            line += f"; all {len(names):,} in {whole:.1f} s, {len(names) / whole:,.0f} a second"
        print(line, flush=True)


def buckets(name, pipe):
    """Prints what a ListBuckets takes."""
    seconds, reply = seconds_of(lambda: pipe.ask("GET", "/"), 20)
    must(reply.status == 200 and reply.body.count(b"<Bucket>") == 1, f"{name}: other buckets: {reply}")
    print(f"{name}: ListBuckets in {seconds * 1000:.2f} ms", flush=True)


def calls(name, words, root, keys):
    """Prints the calls of lanes that a page of 1,000 rows makes."""
    if not shutil.which("strace"):
        print(f"{name}: strace is not installed, so no calls are counted")
        return
    ask = request_of("GET", "/bench?list-type=2")
    one, more = (kinds_of(traced(words, [ask] * count, count), root) for count in (1, 3))
    each = {kind: (more[kind] - one[kind]) / 2 for kind in more if more[kind] != one[kind]}
    files, names = each.pop("size", 0) + each.pop("read", 0), SLOTS * DRIVES
    rows = min(keys, MOST)
    must(not any(each.values()), f"{name}: a listing makes other calls: {each}")
    print(f"{name}: a page of {rows:,} rows: {files:g} calls of lanes that read, and {names} that give names: {(files + names) / rows:.2f} a row", flush=True)


def over(name, words, keys, root=None):
    pipe = Pipe(words, PROGRAM)
    rate = fill(pipe, keys)
    name = f"{name}, {keys:,} keys"
    print(f"{name}: put at {rate:.0f} a second", flush=True)
    lists(name, pipe, keys)
    buckets(name, pipe)
    ended = pipe.close()
    must(ended == (0, ""), f"{name}: the program ended with {ended}")
    if root:
        calls(name, words, root, keys)


def main():
    counts = [int(word) for word in sys.argv[1:]] or [1_000, 100_000]
    prefer_memory()
    pipe = Pipe([], PROGRAM)
    must(pipe.ask("PUT", "/bench", b"").status == 200, "the bucket is not made")
    buckets("memory, no keys", pipe)
    pipe.close()
    for keys in counts:
        over("memory", [], keys)
        with tempfile.TemporaryDirectory(prefix="bench_list-") as root:
            over("folders", ["--root", root], keys, root)


main()
