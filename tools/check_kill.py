#!/usr/bin/env python3
"""Kills the program at random moments over folders, and looks at what it kept: tools/check_kill.py [ROUNDS [SEED]]

In each round the program is opened over the folders of a set, reads all that earlier rounds left, puts, gets and deletes
through `pipe`, and is killed with SIGKILL at a random moment: while it opens, while it reads, or in a request. The rounds
take turns with a set 2+2 and a set 4+2, and in the first one of each, in which the store is made, it ends of its own accord:
so 10 rounds have 8 kills. Then these hold, or the script fails and says why:
  - Every change that was acknowledged is there, and one that was not is there or not.
  - The listings of keys and of versions have exactly what is there so.
  - No reply was wrong, and none was 503.
  - The term that `status` tells never falls, and rises with each life that answered.
  - No id of a version comes twice, and each has the term of its life.
Between two rounds one drive's folder is moved away or back, or one byte is flipped in each kind of file of one drive, or the
shards and manifests of one drive are removed: never on more drives than the set can lose and still take a write. Once the
rounds are done, copies of the folders are damaged further, and the letters of the refusals are compared.

All but the moments of the kills goes by SEED. 10 rounds and the seed 1 without numbers. TMPDIR says on which disk.
"""

import hashlib
import json
import os
import pathlib
import random
import shutil
import signal
import subprocess
import sys
import tempfile
import threading
import time

sys.path.insert(0, str(pathlib.Path(__file__).resolve().parent / "lib"))
from drive_files import Drive
from listings import Wrong, must, pages_of
from pipe_client import Cut, Pipe, request_of
from program import program

PROGRAM = program()
# A bucket without versioning, and one with it.
PLAIN, KEPT = "plain", "kept"
KEYS = [f"key/{number}" for number in range(6)]
# A key whose spelling takes a folder of its own.
KEYS.append("a long key " * 30)
# The lengths of bodies: whole stripes, parts of one, and none.
LENGTHS = [0, 1, 5, 100, 4_096, 65_537, 300_000, 1_048_576, 1_300_000, 2_500_000]
WEIGHTS = [1, 1, 4, 8, 8, 4, 2, 1, 1, 1]
MARKER = "a delete marker"
# The kinds of files, and how their names begin.
KINDS = {"bucket": "b/", "key": "k/", "manifest": "m/", "shard": "s/", "format": "format"}


class PlainKey:
    """A key of the bucket without versioning: the body that it has, or None, and those that changes may yet give it that were cut."""

    def __init__(self):
        self.sure, self.maybe = None, []

    def changed(self, body):
        self.sure, self.maybe = body, []

    def cut(self, body):
        self.maybe.append(body)

    def read(self, reply, name):
        got = reply.body if reply.status == 200 else None
        must(reply.status in (200, 404), f"GET of {name}: {reply}")
        must(got == self.sure or got in self.maybe, f"GET of {name}: another body, of {len(got or b'')} bytes, {reply.status}")
        if got != self.sure:
            self.changed(got)

    def listed(self, rows, name):
        """The rows of the key in a listing of keys are those of a body that it has or may have."""
        bodies = {row_of(body): body for body in [*self.maybe, self.sure]}
        must(tuple(row[2:] for row in rows) in bodies, f"{name} is listed as {rows}")
        body = bodies[tuple(row[2:] for row in rows)]
        if body != self.sure:
            self.changed(body)


class KeptKey:
    """A key of the bucket with versioning: the known versions by their ids, the newest, and contents that cut changes may yet give it."""

    def __init__(self):
        self.versions, self.newest, self.maybe = {}, None, []
        # What all changes that were cut would have given it, also where others were made since.
        self.unsure = []

    def changed(self, version, content):
        self.versions[version] = content
        self.newest, self.maybe = version, []

    def cut(self, content):
        self.maybe.append(content)
        self.unsure.append(content)

    def read(self, reply, name):
        must(reply.status in (200, 404), f"GET of {name}: {reply}")
        got = reply.body if reply.status == 200 else MARKER if reply.is_marker else None
        version = reply.version
        if version in self.versions or version is None:
            must(version == self.newest, f"GET of {name}: version {version}, and {self.newest} is the newest")
            must(got == self.versions.get(version), f"GET of {name}: another content of version {version}")
            return
        must(got in self.maybe, f"GET of {name}: a version that no change made: {reply}")
        self.changed(version, got)

    def read_version(self, reply, version, name):
        content = self.versions[version]
        if content is MARKER:
            must(reply.status == 405 and reply.is_marker, f"GET of the marker {version} of {name}: {reply}")
        else:
            must(reply.status == 200 and reply.body == content, f"GET of the version {version} of {name}: another reply, {reply.status}")
        must(reply.version == version, f"GET of the version {version} of {name}: {reply.version} is told")

    def listed(self, rows, name):
        """The rows of the key in a listing of versions: all known versions, in their order, and else such as a change that was cut made."""
        known, ids = list(reversed(self.versions)), [row[2] for row in rows]
        must(ids[0:1] == [row[2] for row in rows if row[3]], f"the latest of {name}: {rows}")
        must(known == [id for id in ids if id in self.versions], f"the versions of {name}: {rows}, and {known} are known")
        for row in rows:
            told = row[4:] or MARKER
            if row[2] in self.versions:
                content = self.versions[row[2]]
                must(told == (MARKER if content is MARKER else row_of(content)[0]), f"{name} is listed as {row}")
            else:
                may_be = [it for it in (self.maybe if row[3] else self.unsure) if told == (MARKER if it is MARKER else row_of(it)[0])]
                must(may_be, f"{name} has a version that no change made: {row}")
                if row[3]:
                    self.changed(row[2], may_be[0])


def row_of(body):
    """What a row of a listing tells of a body: its tag and its length. None where there is no body."""
    return () if body is None else ((f'"{hashlib.md5(body).hexdigest()}"', len(body)),)


class Killer:
    """Kills a process after a time."""

    def __init__(self, pipe, seconds):
        self.timer = threading.Timer(seconds, pipe.kill)
        self.timer.start()

    def stop(self):
        self.timer.cancel()
        self.timer.join()


class Set:
    """A store over folders, what it is to have, and the drives that are hurt between its lives."""

    def __init__(self, name, root, drives, away, hurt, dice):
        self.name, self.root, self.dice = name, root, dice
        self.words = ["--root", str(root), "--drives", str(drives), "--parity", "2"]
        self.drives = [Drive(root / str(index)) for index in range(drives)]
        self.away, self.hurt = self.drives[away], self.drives[hurt]
        self.plain = {key: PlainKey() for key in KEYS}
        self.kept = {key: KeptKey() for key in KEYS}
        self.ids, self.bodies, self.life, self.term = set(), 0, 0, 0
        # How long an opening, the reading of all, and a change took last, in seconds.
        self.opening, self.reading, self.changing = 1.0, 0.5, 0.05
        self.answered = self.cut = 0
        self.flipped = set()
        root.mkdir()

    # Between two lives.

    def status(self):
        """What `status` tells."""
        done = subprocess.run([PROGRAM, *self.words, "status"], stdin=subprocess.DEVNULL, capture_output=True, check=False)
        must(done.returncode == 0, f"status ended with {done.returncode}: {done.stderr.decode()}")
        return json.loads(done.stdout)

    def harm(self):
        """Hurts drives before a life, and says what it did."""
        turn = self.life % 5
        if turn == 1:
            return self.flip(self.hurt)
        if turn == 2:
            self.away.move_away()
            done = f"{self.away.index} moved away"
            if self.away is not self.hurt:
                done += f", {self.remove(self.hurt)}"
            return done
        if turn == 3:
            return f"{self.away.index} still away"
        if turn == 4:
            self.away.move_back()
            return f"{self.away.index} moved back, {self.remove(self.hurt)}"
        return "nothing"

    def restore(self):
        """Puts the folder back that is away, if it is."""
        if self.away.elsewhere.exists():
            self.away.move_back()

    def flip(self, drive):
        """Flips a byte of a file of each kind on a drive, where it has one."""
        done = [kind for kind, front in KINDS.items() if drive.flip(front, self.dice)]
        self.flipped.update(done)
        return f"a byte flipped on {drive.index} in a file of each kind: {', '.join(done)}"

    def remove(self, drive):
        """Removes the shards and manifests of a drive."""
        count = drive.remove("m/") + drive.remove("s/")
        return f"{count} shards and manifests of {drive.index} removed"

    # A life.

    def live(self, kills):
        """A life of the store: it is opened, read, changed, and killed or ended."""
        self.life += 1
        moment = self.dice.choice(["opening", "reading", "changing", "changing", "changing", "changing"]) if kills else "end"
        after = self.dice.randrange(25)
        part = self.dice.random()
        pipe = Pipe(self.words, PROGRAM)
        killer = Killer(pipe, 1.2 * part * self.opening) if moment == "opening" else None
        answered = self.answered
        try:
            self.read_all(pipe, lambda: Killer(pipe, part * self.reading) if moment == "reading" else None)
            for number in range(40):
                if number == after and moment == "changing":
                    killer = Killer(pipe, 2 * part * self.changing)
                self.change(pipe)
        except Cut:
            pass
        if killer:
            killer.stop()
        status, said = self.end(pipe, moment)
        self.look_at_term(self.answered > answered)
        return f"killed while {moment}" if status == -signal.SIGKILL else f"ended with {status} {said}".strip()

    def end(self, pipe, moment):
        """How the process ends: by the kill, or else of its own accord, and then well."""
        if moment != "end":
            pipe.kill()
        ended = pipe.close()
        must(ended in ((0, ""), (-signal.SIGKILL, "")), f"the program ended with {ended}")
        self.cut += ended[0] != 0
        return ended

    def look_at_term(self, answered):
        """The term never falls, and it rose where the life answered; it is that of the ids which the life gave."""
        now = self.status()["term"]
        must(now == self.term + 1 or (now == self.term and not answered), f"the term was {self.term}, and is {now}")
        self.term = now

    def ask(self, pipe, method, target, body=None):
        """A reply, which is no 503 and has a right term."""
        reply = pipe.ask(method, target, body)
        self.answered += 1
        must(reply.status < 500, f"{method} {target}: {reply}")
        return reply

    def read_all(self, pipe, begins):
        """Reads all that earlier lives left."""
        reply = self.ask(pipe, "GET", "/")
        self.opening = time.monotonic() - pipe.began
        killer = begins()
        try:
            if self.term == 0 and b"<Name>" not in reply.body:
                self.make_buckets(pipe)
                return
            names = [part.split(b"<")[0].decode() for part in reply.body.split(b"<Name>")[1:]]
            must(names == sorted([PLAIN, KEPT]), f"the buckets are {names}")
            began = time.monotonic()
            for key in KEYS:
                self.plain[key].read(self.get(pipe, PLAIN, key), short(key))
                self.kept[key].read(self.get(pipe, KEPT, key), short(key))
                for version in self.some_versions(key):
                    self.kept[key].read_version(self.get(pipe, KEPT, key, version), version, short(key))
            self.list_all(pipe)
            self.reading = time.monotonic() - began
        finally:
            if killer:
                killer.stop()

    def list_all(self, pipe):
        """Lists the keys of the one bucket and the versions of the other, by pages of a few."""
        for bucket, is_versions in ((PLAIN, False), (KEPT, True)):
            rows = [row for page in pages_of(pipe, bucket, {}, 5, is_versions) for row in page.rows]
            must({row[1] for row in rows} <= set(KEYS), f"other keys are listed: {rows}")
            for key in KEYS:
                self.states(bucket)[key].listed([row for row in rows if row[1] == key], short(key))
            self.ids.update(row[2] for row in rows if is_versions)

    def some_versions(self, key):
        """Three of the versions of a key, and all of them where there are fewer."""
        versions = sorted(self.kept[key].versions)
        return versions if len(versions) <= 3 else self.dice.sample(versions, 3)

    def make_buckets(self, pipe):
        for bucket in (PLAIN, KEPT):
            must(self.ask(pipe, "PUT", f"/{bucket}", b"").status == 200, f"the bucket {bucket} is not made")
        document = b"<VersioningConfiguration><Status>Enabled</Status></VersioningConfiguration>"
        must(self.ask(pipe, "PUT", f"/{KEPT}?versioning", document).status == 200, "versioning is not set")

    def get(self, pipe, bucket, key, version=None):
        reply = self.ask(pipe, "GET", target_of(bucket, key) + (f"?versionId={version}" if version else ""))
        self.ids.update([reply.version] if reply.version else [])
        return reply

    def change(self, pipe):
        """One request: a PUT, a DELETE or a GET of some key."""
        key = self.dice.choice(KEYS)
        bucket = self.dice.choice([PLAIN, KEPT])
        kind = self.dice.choice(["put", "put", "put", "delete", "get"])
        length = self.dice.choices(LENGTHS, WEIGHTS)[0]
        if kind == "get":
            self.states(bucket)[key].read(self.get(pipe, bucket, key), short(key))
            return
        began = time.monotonic()
        if kind == "put":
            self.put(pipe, bucket, key, length)
        else:
            self.delete(pipe, bucket, key)
        self.changing = 0.8 * self.changing + 0.2 * (time.monotonic() - began)

    def states(self, bucket):
        return self.plain if bucket == PLAIN else self.kept

    def put(self, pipe, bucket, key, length):
        """A PUT of a body that was never put before, but for those too short for that."""
        self.bodies += 1
        body = random.Random(f"{self.name} {self.bodies}").randbytes(length)
        state = self.states(bucket)[key]
        try:
            reply = self.ask(pipe, "PUT", target_of(bucket, key), body)
        except Cut:
            state.cut(body)
            raise
        must(reply.status == 200 and reply.body == b"", f"PUT of {key}: {reply}")
        self.acknowledge(state, bucket, reply, body, key)

    def delete(self, pipe, bucket, key):
        state = self.states(bucket)[key]
        try:
            reply = self.ask(pipe, "DELETE", target_of(bucket, key))
        except Cut:
            state.cut(None if bucket == PLAIN else MARKER)
            raise
        must(reply.status == 204 and reply.is_marker == (bucket == KEPT), f"DELETE of {key}: {reply}")
        self.acknowledge(state, bucket, reply, None if bucket == PLAIN else MARKER, key)

    def acknowledge(self, state, bucket, reply, content, key):
        if bucket == PLAIN:
            must(reply.version is None, f"a change of {key} tells a version: {reply}")
            state.changed(content)
            return
        must(reply.version and reply.version not in self.ids, f"the id {reply.version} comes twice")
        self.ids.add(reply.version)
        term = int(reply.version[:8] + reply.version[9:13], 16)
        must(term == self.term + 1, f"the id {reply.version} is not of the term {self.term + 1}")
        state.changed(reply.version, content)


def short(key):
    """A key in a message."""
    return key if len(key) < 20 else f"{key[:17]}..."


def target_of(bucket, key):
    return f"/{bucket}/{key.replace(' ', '%20')}"


class Letters:
    """What the letters of refusals are where more is damaged than a set can lose: on copies of the folders of a set 2+2."""

    def __init__(self, store, work):
        self.store, self.work, self.count = store, work, 0
        self.key = "letters"

    def look(self):
        self.store.restore()
        pipe = Pipe(self.store.words, PROGRAM)
        must(pipe.ask("PUT", target_of(PLAIN, self.key), b"x" * 1000).status == 200, "the key of the letters is not put")
        must(pipe.close() == (0, ""), "the program did not end well")
        self.case("Read quorum: dddg", lambda drives: [it.flip_name(self.register()) for it in drives[:3]])
        self.case("Read quorum: fffg", lambda drives: [it.block_slot(self.register()) for it in drives[:3]])
        self.case("Read quorum: ldfg", self.one_of_each)
        self.case("Write quorum: gffg", lambda drives: [it.block_slot(self.register()) for it in drives[1:3]], "PUT", b"y")
        self.case("Write quorum: gffg", lambda drives: [it.block_writes() for it in drives[1:3]], "PUT", b"y", late=True)
        self.case("Shard quorum: lldg", self.bad_shards)
        self.case("Shard quorum: gfdl", self.bad_drives)
        self.case("Shard quorum: lldd", self.bad_manifests)
        self.undecided()
        self.cut_reply()

    def register(self):
        return f"k/{PLAIN}/{self.key}"

    def one_of_each(self, drives):
        drives[0].move_away()
        drives[1].flip_name(self.register())
        drives[2].block_slot(self.register())

    def bad_shards(self, drives):
        drives[0].remove("s/")
        drives[1].remove("s/")
        drives[2].flip_all("s/")

    def bad_drives(self, drives):
        drives[1].block_data()
        drives[2].flip_all("s/")
        drives[3].remove("s/")

    def bad_manifests(self, drives):
        drives[0].remove("m/")
        drives[1].remove("m/")
        drives[2].flip_all("m/")
        drives[3].flip_all("m/")

    def copy(self):
        """A copy of the folders, and its drives."""
        self.count += 1
        root = self.work / f"letters{self.count}"
        shutil.copytree(self.store.root, root)
        return root, [Drive(root / str(index)) for index in range(len(self.store.drives))]

    def undecided(self):
        """A change that two lanes have of three, and of whose manifests one is left, is neither made nor given up."""
        root, drives = self.copy()
        words = ["--root", str(root), *self.store.words[2:]]
        pipe = Pipe(words, PROGRAM)
        must(pipe.ask("GET", "/").status == 200, "the buckets are not listed")
        for drive in drives[2:]:
            drive.hide_slot(self.register())
        self.refused(pipe, "Write quorum: ggff", "PUT", b"z")
        self.ends(pipe, "Write quorum: ggff", "PUT")
        drives[2].show_slot(self.register())
        drives[3].block_data()
        for drive in drives[:2]:
            drive.flip_all("m/")
        pipe = Pipe(words, PROGRAM)
        self.refused(pipe, "Undecided 2 1: ddgf")
        self.ends(pipe, "Undecided 2 1: ddgf")
        shutil.rmtree(root)

    def cut_reply(self):
        """A body of which the last stripe is bad on too many drives is given up to there, and the process ends with status 10."""
        key, body = "cut", random.Random("a body that is cut").randbytes(8 << 20)
        root, drives = self.copy()
        words = ["--root", str(root), *self.store.words[2:]]
        pipe = Pipe(words, PROGRAM)
        reply = pipe.ask("PUT", target_of(PLAIN, key), body)
        must(reply.status == 200 and pipe.close() == (0, ""), f"the key {key} is not put: {reply}")
        for drive in drives[1:]:
            drive.flip_longest("s/", 0.95)
        pipe = Pipe(words, PROGRAM)
        pipe.process.stdin.write(request_of("GET", target_of(PLAIN, key)))
        pipe.process.stdin.close()
        told = pipe.process.stdout.read()
        ended = pipe.wait()
        must(ended == (10, "ostore: reply cut"), f"the process ended with {ended}")
        _, _, got = told.partition(b"\r\n\r\n")
        must(told.startswith(b"HTTP/1.1 200 ") and 0 < len(got) < len(body) and body.startswith(got), f"{len(got)} bytes were given before the cut")
        shutil.rmtree(root)

    def case(self, wanted, hurt, method="GET", body=None, late=False):
        """A request over a copy of the folders that is hurt so, before the opening or behind it, is refused with these words."""
        root, drives = self.copy()
        if not late:
            hurt(drives)
        pipe = Pipe(["--root", str(root), *self.store.words[2:]], PROGRAM)
        try:
            if late:
                must(pipe.ask("GET", "/").status == 200, f"{wanted}: the buckets are not listed")
                hurt(drives)
        except Cut:
            raise Wrong(f"{wanted}: the program ended with {pipe.wait()}") from None
        self.refused(pipe, wanted, method, body)
        self.ends(pipe, wanted, method)
        shutil.rmtree(root)

    def refused(self, pipe, wanted, method="GET", body=None):
        """A request is refused with these words."""
        try:
            reply = pipe.ask(method, target_of(PLAIN, self.key), body)
        except Cut:
            raise Wrong(f"{wanted}: the program ended with {pipe.wait()}") from None
        must(reply.status == 503 and f"<Message>{wanted}</Message>".encode() in reply.body, f"{wanted} was wanted: {reply}")

    def ends(self, pipe, wanted, method="GET"):
        """The process ends well, and has said the one refusal in one line."""
        ended, call = pipe.close(), {"GET": "GetObject", "PUT": "PutObject"}[method]
        must(ended == (0, f"ostore: 503 SlowDown for {call}: {wanted}"), f"{wanted}: the program ended with {ended}")


def main():
    rounds = int(sys.argv[1]) if len(sys.argv) > 1 else 10
    seed = sys.argv[2] if len(sys.argv) > 2 else "1"
    with tempfile.TemporaryDirectory(prefix="check_kill-") as folder:
        work = pathlib.Path(folder)
        dice = random.Random(seed)
        stores = [Set("2+2", work / "two", 4, 2, 2, dice), Set("4+2", work / "four", 6, 1, 4, dice)]
        for number in range(rounds):
            store = stores[number % 2]
            try:
                done = store.harm()
                moment = store.live(kills=store.life > 0)
            except Wrong as why:
                sys.exit(f"check_kill: round {number + 1}, set {store.name}, seed {seed}: {why}")
            print(f"round {number + 1}: {store.name}, {done}; {moment}; term {store.term}", flush=True)
        try:
            for store in stores:
                store.live(kills=False)
                missing = KINDS.keys() - store.flipped
                must(rounds < 10 or not missing, f"set {store.name}: no byte was flipped in a file of the kind {missing}")
            Letters(stores[0], work).look()
        except Wrong as why:
            sys.exit(f"check_kill: behind the rounds, seed {seed}: {why}")
        answers = sum(store.answered for store in stores)
        kills = sum(store.cut for store in stores)
        print(f"{rounds} rounds, {kills} kills, {answers} replies: every acknowledged change is there, and no reply was wrong")


main()
