#!/usr/bin/env python3
"""Looks at the listings of keys and versions, and at GETs and HEADs under If-Match: tools/check_listings.py [CHECK..]

Each check prints a line with what it found:
  cuts       some twenty keys with groups, versions, delete markers and null versions, by many prefixes and delimiters: the pages of
             each size that follow one another are those of one list, which this script filters and cuts by S3's rules
  rounds     200 keys of one slot among others, and 1,001 keys: more than a slot is asked for at once, and more than a page has. 38
             buckets of one slot beside all these keys are listed, and no key of another bucket is
  worked     worked examples: what begins a page, what is refused, how names are spelled, what isn't served
  matches    If-Match on a GET and a HEAD: the tag, another one, lists, `*`, weak ones, and what comes before and behind 412
  served     pages over `serve`, also while other connections put and delete beside them
  lost       which drives a listing needs, and what is refused without them
  pending    a key whose PUT was refused is listed as it is got

All but the last three go through `pipe` over drives in memory. TMPDIR says where folders are; without it they are in memory.
Its last line is 'N passed, M failed', of cases; it ends with 1 where one failed.
"""

import pathlib
import random
import re
import shutil
import sys
import tempfile
import time

sys.path.insert(0, str(pathlib.Path(__file__).resolve().parent / "lib"))
from drive_files import Drive, slot_of
from listing_cases import NO_ID, ends_well, matches, refused, worked
from listings import NULL, Bucket, Version, Wrong, cut, in_order, must, page_of, pages_of, query_of, rows_of_keys, rows_of_versions, walk
from pipe_client import Cut, Pipe
from program import prefer_memory, program
from serve_client import Failed, Server, at_once

PROGRAM = program()
# Keys that share fronts, keys that end with a delimiter or are one, and names that need spelling.
KEYS = [
    "a", "a/", "a/1", "a/1/x", "a/2", "a/b/", "a/b/1", "a/b--c", "a--", "a--/x", "a---b", "ab", "b//2", "b/1", "b--", "/", "--/",
    "é", "é/ü", "日本/語", "\uffee", "\U0001f600--1", "\U0010ffff/x", "a blank/<&>\"'%2F+", "c\r\n\t",
]
ASKS = [
    {}, {"delimiter": "/"}, {"delimiter": "--"}, {"prefix": "a"}, {"prefix": "a/", "delimiter": "/"}, {"prefix": "a", "delimiter": "--"},
    {"prefix": "a/b", "delimiter": "/"}, {"prefix": "b/", "delimiter": "/"}, {"delimiter": "a"}, {"delimiter": "é"}, {"prefix": "é", "delimiter": "ü"},
    {"prefix": "none"}, {"delimiter": "/", "encoding-type": "url"}, {"encoding-type": "url", "prefix": "a blank/<"}, {"delimiter": "/1"},
]
CHECKS = ("cuts", "rounds", "worked", "matches", "served", "lost", "pending")
STARTS = ["", "a", "a/", "a/1", "a/11", "a/zzz", "a0", "b/1", "\U0001f600", "\U0010ffff/x", "\U0010ffff/y"]


class Checks:
    """The cases, and how many passed."""

    def __init__(self, work):
        self.work, self.passed, self.failed, self.told = work, 0, 0, 0

    def case(self, name, work, *words):
        """Counts a case."""
        try:
            work(*words)
            self.passed += 1
        except (Wrong, Failed, Cut, OSError, ValueError, KeyError, IndexError) as why:
            self.failed += 1
            self.told += 1
            if self.told <= 40:
                print(f"check_listings: {name}: {why!r}"[:1500], file=sys.stderr, flush=True)

    def group(self, name, work):
        """Does a check, and says how it went."""
        began, before = time.monotonic(), (self.passed, self.failed)
        self.case(name, work)
        passed, failed = self.passed - before[0], self.failed - before[1]
        print(f"{name}: {passed} cases" + (f", and {failed} FAILED" if failed else "") + f" ({time.monotonic() - began:.1f} s)", flush=True)

    # Over `pipe` and drives in memory.

    def cuts(self):
        pipe = Pipe([], PROGRAM)
        plain, kept = Bucket(pipe, "cuts"), Bucket(pipe, "cuts-kept")
        for bucket in (plain, kept):
            fill(bucket)
        for is_versions, bucket in ((False, plain), (False, kept), (True, kept)):
            for ask in ASKS:
                count = len((rows_of_versions if is_versions else rows_of_keys)(bucket, ask))
                for most in range(1, min(count, 21) + 2):
                    self.case(f"{bucket.name}, {'versions' if is_versions else 'keys'} by {ask}, {most} a page", walk, pipe, bucket, ask, most, is_versions)
            for start in STARTS:
                for ask in ({}, {"delimiter": "/"}, {"prefix": "a", "delimiter": "--"}):
                    begin = {**ask, ("key-marker" if is_versions else "start-after"): start}
                    for most in (1, 3, 1000):
                        self.case(f"{bucket.name} by {begin}, {most} a page", walk, pipe, bucket, begin, most, is_versions)
        for ask in ({}, {"delimiter": "/"}):
            self.case(f"versions without versioning by {ask}", walk, pipe, plain, ask, 5, True)
        self.case("each version as a marker", self.each_marker, pipe, kept)
        self.case("moments", moments, pipe, kept)
        self.case("it ends", ends_well, pipe)

    def each_marker(self, pipe, bucket):
        """Each version of each key as the marker, and an id that the key hasn't."""
        for key, versions in bucket.keys.items():
            for id in [*(it.id for it in versions), NO_ID, NULL]:
                for ask in ({}, {"delimiter": "/"}):
                    walk(pipe, bucket, {**ask, "key-marker": key, "version-id-marker": id}, 6, True)

    def rounds(self):
        pipe = Pipe([], PROGRAM)
        bucket = Bucket(pipe, "rounds")
        dice = random.Random(1)
        # The slot of a key is that of the bucket, a slash and the key.
        slot, found, number = slot_of("rounds/"), 0, 0
        while found < 200:
            key, number = f"{'deep/' if number % 3 else ''}{number:05}", number + 1
            if slot_of(f"rounds/{key}") == slot:
                bucket.put(key)
                found += 1
            elif dice.random() < 0.01:
                bucket.put(key)
        for key in in_order(bucket.keys)[::10]:
            bucket.delete(key)
        for ask in ({}, {"delimiter": "/"}, {"prefix": "deep/"}, {"prefix": "deep/", "delimiter": "7"}, {"start-after": "deep/03"}):
            for most in (1, 7, 48, 49, 96, 1000):
                if most > 1 or ask.get("delimiter") == "/":
                    self.case(f"one slot by {ask}, {most} a page", walk, pipe, bucket, ask, most)
        self.case("versions of one slot", walk, pipe, bucket, {}, 50, True)
        many = Bucket(pipe, "many")
        for number in range(1001):
            many.put(f"{number % 7}/{number:04}-" + "k" * (number % 40))
        self.case("1,001 keys", walk, pipe, many, {}, 1000)
        self.case("1,001 keys as versions", walk, pipe, many, {}, 1000, True)
        self.case("1,001 keys in seven groups", walk, pipe, many, {"delimiter": "/"}, 1000)
        self.case("1,001 keys, 333 a page", walk, pipe, many, {"encoding-type": "url"}, 333)
        many.put("z" * 1024)
        self.case("a key of 1,024 bytes", walk, pipe, many, {}, 1001 // 2)
        self.case("no more than 1,000", no_more, pipe, many)
        self.buckets(pipe, ["rounds", "many"])

    def buckets(self, pipe, names):
        """Buckets of one slot are listed, more than a slot is asked for at once, and no keys of buckets with alike names."""
        slot, number = slot_of("many/0/0000-"), 0
        while len(names) < 40:
            name, number = f"many-{number}", number + 1
            if slot_of(name) == slot:
                Bucket(pipe, name)
                names.append(name)
        beside = [Bucket(pipe, name) for name in ("man", "many.b", "manya")]
        for bucket in beside:
            bucket.put("0/0000")
            self.case(f"the keys of {bucket.name} alone", walk, pipe, bucket, {}, 1000)
        told = re.findall(r"<Name>(.*?)</Name>", pipe.ask("GET", "/").body.decode())
        self.case("the buckets", must, told == sorted([*names, *(it.name for it in beside)]), f"the buckets are {told}")
        self.case("it ends", ends_well, pipe)

    def worked(self):
        worked(self.case)

    def matches(self):
        matches(self.case)

    # Over folders.

    def root(self, name):
        root = self.work / name
        root.mkdir()
        return root

    def served(self):
        with Server(self.root("served"), 8) as server:
            with server.is_ready().connect() as line:
                bucket, stable = Bucket(line, "served"), Bucket(line, "stable")
                fill(stable)
                for ask in ({}, {"delimiter": "/"}, {"prefix": "a", "delimiter": "--", "encoding-type": "url"}):
                    for is_versions in (False, True):
                        self.case(f"served by {ask}", walk, line, stable, ask, 4, is_versions)
                self.case("a tag over serve", refused, line, stable.at("a"), 412, "PreconditionFailed", None, ['If-Match: "x"'])
                for number in range(40):
                    bucket.put(f"stays/{number:02}")
                names = {f"stays/{number:02}" for number in range(40)}
                self.case("pages while others put and delete", self.beside, server, names)
                for key in [f"moves/{worker}/{number}" for worker in range(3) for number in range(8)]:
                    if line.ask("HEAD", bucket.at(key)).status == 200:
                        bucket.add(key, Version(NULL, b"x"))
                self.case("what they left", walk, line, bucket, {}, 7)

    def beside(self, server, names):
        """Three connections put and delete keys of their own while two go through pages: what stays is in each, in order and once."""
        until = time.monotonic() + 3

        def change(worker):
            dice = random.Random(worker)
            with server.connect() as line:
                while time.monotonic() < until:
                    key = f"/served/moves/{worker}/{dice.randrange(8)}"
                    reply = line.ask(*(("PUT", key, b"x") if dice.random() < 0.6 else ("DELETE", key)))
                    must(reply.status in (200, 204), f"a change of {key}: {reply}")

        def read(ask, is_versions, name):
            with server.connect() as line:
                while time.monotonic() < until:
                    got = [row[1] for page in pages_of(line, "served", ask, 5, is_versions) for row in page.rows]
                    must(got == in_order(set(got)), f"the rows don't rise: {got}")
                    must({it for it in got if it.startswith("stays/")} == name, f"what stays isn't there: {got}")

        changing = [lambda worker=worker: change(worker) for worker in range(3)]
        asks = (({}, False, names), ({"delimiter": "/"}, False, {"stays/"}), ({}, True, names))
        at_once([*changing, *(lambda words=words: read(*words) for words in asks)])

    def copy_of(self, store, name):
        root = self.work / name
        shutil.copytree(store, root)
        return root, [Drive(root / str(index)) for index in range(4)]

    def lost(self):
        store = self.root("store")
        pipe = Pipe(["--root", str(store)], PROGRAM)
        bucket = Bucket(pipe, "pic")
        for key in ("a", "b/1", "b/2", "c"):
            bucket.put(key)
        ends_well(pipe)
        must(slot_of("pic") != slot_of("pic/c"), "the slots are one")
        pages = {"ListObjectsV2": False, "ListObjectVersions": True}

        def is_whole(name, hurt, asks=({}, {"delimiter": "/"})):
            root, drives = self.copy_of(store, name)
            hurt(drives)
            pipe = Pipe(["--root", str(root)], PROGRAM)
            for ask in asks:
                for is_versions in pages.values():
                    walk(pipe, bucket, ask, 2, is_versions)
            ends_well(pipe)

        def is_refused(name, hurt, letters, ask):
            root, drives = self.copy_of(store, name)
            hurt(drives)
            pipe = Pipe(["--root", str(root)], PROGRAM)
            for is_versions in pages.values():
                refused(pipe, "/pic?" + query_of(ask, is_versions), 503, "SlowDown", f"Read quorum: {letters}")
            ended, wanted = pipe.close(), (0, "\n".join(f"ostore: 503 SlowDown for {call}: Read quorum: {letters}" for call in pages))
            must(ended == wanted, f"the program ended with {ended}")

        self.case("a drive is away", is_whole, "away", lambda drives: drives[1].move_away())
        self.case("two lanes of a key's slot", is_whole, "two", lambda drives: [it.block_slot("k/pic/c") for it in drives[:2]])
        self.case("two files of a key", is_whole, "torn", lambda drives: [it.flip_name("k/pic/c") for it in drives[1:3]])
        self.case("three lanes of a key's slot", is_refused, "three", lambda drives: [it.block_slot("k/pic/c") for it in drives[:3]], "fffg", {})
        self.case("three lanes of the bucket's slot", is_refused, "none", lambda drives: [it.block_slot("b/pic") for it in drives[1:]], "gfff", {})
        self.case("three files of a key", is_refused, "shown", lambda drives: [it.flip_name("k/pic/c") for it in drives[:3]], "dddg", {})
        before = ({"prefix": "b/"}, {"prefix": "a"})
        self.case("it isn't asked for", is_whole, "beside", lambda drives: [it.flip_name("k/pic/c") for it in drives[:3]], before)

    def pending(self):
        """A PUT that two lanes took isn't acknowledged; its key is listed as it is got, and so from then on."""
        for is_away, name in ((True, "a lane is away"), (False, "all lanes are there")):
            root = self.root(name)
            words, drives = ["--root", str(root)], [Drive(root / str(index)) for index in range(4)]
            pipe = Pipe(words, PROGRAM)
            bucket = Bucket(pipe, "pic")
            for key in ("a", "z"):
                bucket.put(key)
            for drive in drives[2:]:
                drive.hide_slot("k/pic/m")
            self.case("a PUT is refused", refused, pipe, "/pic/m", 503, "SlowDown", "Write quorum: ggff", (), "PUT", b"new")
            pipe.close()
            # What two lanes have may be the key's where a third one can't be read, and isn't where it can.
            drives[2].show_slot("k/pic/m")
            if not is_away:
                drives[3].show_slot("k/pic/m")
            self.case(f"{name}: it is listed as it is got", self.listed_as_got, words, bucket)
            if is_away:
                drives[3].show_slot("k/pic/m")
            self.case(f"{name}: and in the next life", self.listed_as_got, words, bucket)

    def listed_as_got(self, words, bucket):
        """A life in which a key is listed and then got."""
        pipe = Pipe(words, PROGRAM)
        page, versions = page_of(pipe, "pic", {}), page_of(pipe, "pic", {}, True)
        reply = pipe.ask("GET", "/pic/m")
        must(reply.status == 200 and reply.body == b"new" or reply.status == 404 and "m" not in bucket.keys, f"GET of the key: {reply}")
        if reply.status == 200:
            bucket.add("m", Version(NULL, reply.body))
        page.has_rows(rows_of_keys(bucket, {}))
        versions.has_rows(rows_of_versions(bucket, {}))
        ends_well(pipe)


def fill(bucket):
    """Twenty keys and some more: some deleted, and, where the bucket keeps versions, with some of each kind."""
    keeps = bucket.name.endswith("kept") or bucket.name == "stable"
    for number, key in enumerate(KEYS):
        bucket.put(key, b"%d" % number * (number % 3))
    for key in ("a/gone", "gone/1", "ab/gone"):
        bucket.put(key)
        bucket.delete(key)
    if not keeps:
        return
    bucket.set_mode("Enabled")
    for key in ("a/1", "b/1", "é", "new/1", "old--"):
        bucket.put(key, b"second")
    for key in ("a/1", "a/2", "only/marker", "a--"):
        bucket.delete(key)
    bucket.put("a/2", b"third")
    bucket.set_mode("Suspended")
    for key in ("b/1", "a/1", "only/null", "--/"):
        bucket.put(key, b"fourth")
    for key in ("é", "b--", "ab"):
        bucket.delete(key)
    bucket.set_mode("Enabled")
    bucket.put("é", b"fifth")
    first = bucket.put("spent/1")
    bucket.delete_version("spent/1", first)
    bucket.delete("old--")
    bucket.delete_version("old--", bucket.keys["old--"][0].id)


def moments(pipe, bucket):
    """When each version was made is told as its HEAD tells it."""
    page = page_of(pipe, bucket.name, {"encoding-type": "url"}, True)
    for (key, id), told in page.moments.items():
        reply = pipe.ask("GET", f"{bucket.at(key)}?versionId={id}")
        moment = time.strftime("%Y-%m-%dT%H:%M:%S.000Z", time.strptime(reply.headers["last-modified"], "%a, %d %b %Y %H:%M:%S GMT"))
        must(told == moment, f"{key!r} {id} was made {told} by the listing, and {moment} by its head")


def no_more(pipe, bucket):
    """A page has 1,000 rows, also where more are asked for, or nothing is said."""
    for ask in ({"max-keys": 5000}, {}):
        page = page_of(pipe, bucket.name, ask)
        must(len(page.rows) == 1000 and page.is_truncated and page.told["MaxKeys"] == "1000", f"{len(page.rows)} rows, {page.told}")
        page.has_rows(cut(rows_of_keys(bucket, {}), 1000)[0])


def main():
    names = sys.argv[1:] or CHECKS
    if not set(names) <= set(CHECKS):
        sys.exit(f"check_listings: the words are names of checks: {' '.join(CHECKS)}")
    prefer_memory()
    folder = pathlib.Path(tempfile.mkdtemp(prefix="check_listings-"))
    checks = Checks(folder)
    try:
        for name in names:
            checks.group(name, getattr(checks, name))
    finally:
        shutil.rmtree(folder, ignore_errors=True)
    if checks.told > 40:
        print(f"check_listings: {checks.told - 40} more cases failed", file=sys.stderr)
    print(f"{checks.passed} passed, {checks.failed} failed")
    sys.exit(checks.failed > 0)


main()
