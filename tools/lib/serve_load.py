"""Calls of many clients at once on a few keys of a server, and what they recorded."""

import hashlib
import math
import random
import threading
import time

from histories import GONE, Call, wrong_of
from serve_client import Cut, at_once, must

# A bucket without versioning, and one with it.
PLAIN, KEPT = "plain", "kept"
# The lengths of bodies: parts of a stripe, and in the full form some of more than one.
LENGTHS = [30, 200, 4_096, 70_000, 1_300_000]
WEIGHTS = [10, 10, 10, 2, 1]
KINDS = ["PUT", "GET", "HEAD", "DELETE"]
SHARES = [35, 35, 15, 15]


class Load:
    """Calls of many clients on a few keys, and what they recorded."""

    def __init__(self, keys, seed, weights):
        self.keys, self.seed, self.weights = keys, seed, weights
        self.calls = {key: [] for key in keys}
        # The calls by their bodies' digests, as SHA-256 and as MD5 in a tag; and which version has which body.
        self.values, self.tags, self.versions = {}, {}, {}
        self.lock = threading.Lock()
        self.round = self.done = self.refused = 0
        self.odd = []
        # Of each connection that was cut, how long its client had given nothing.
        self.silences = []

    def make_buckets(self, server):
        document = b"<VersioningConfiguration><Status>Enabled</Status></VersioningConfiguration>"
        with server.connect() as line:
            for bucket in (PLAIN, KEPT):
                must(line.ask("PUT", f"/{bucket}", b"").status == 200, f"the bucket {bucket} is not made")
            must(line.ask("PUT", f"/{KEPT}?versioning", document).status == 200, "versioning is not set")

    def run(self, server, clients, count):
        """So many clients do so many calls each, or all until the server is gone."""
        self.round += 1
        works = [lambda number=number: self.client(server, number, count) for number in range(clients)]
        at_once(works)

    def client(self, server, number, count):
        dice = random.Random(f"{self.seed} {self.round} {number}")
        try:
            with server.connect() as line:
                for each in range(count):
                    key = dice.choice(self.keys)
                    kind = dice.choices(KINDS, SHARES)[0]
                    self.ask(line, kind, key, dice, f"{self.round}.{number}.{each}")
        except Cut:
            # Where the server is killed; whether it should be there is looked at elsewhere.
            pass

    def ask(self, line, kind, key, dice, value):
        """A call, which is recorded."""
        body = None
        if kind == "PUT":
            body = f"{value} of {key}\n".encode()
            length = dice.choices(LENGTHS[: len(self.weights)], self.weights)[0]
            body += dice.randbytes(max(0, length - len(body)))
            self.note_body(value, body)
        start = time.monotonic()
        try:
            reply = line.ask(kind, key, body)
        except Cut:
            self.silences.append(line.silence)
            self.record(key, kind, value, start, math.inf)
            raise
        end = time.monotonic()
        if reply.status >= 500:
            self.refused += 1
            self.record(key, kind, value, start, math.inf)
            return
        self.done += 1
        if kind == "PUT":
            self.look_at(reply.status == 200 and reply.headers.get("etag") == tag_of(body), f"PUT of {value} to {key}: {reply}")
            self.note_version(key, reply, value)
        elif kind == "DELETE":
            self.look_at(reply.status == 204, f"DELETE of {key}: {reply}")
        else:
            value = self.value_of(kind, key, reply)
        self.record(key, kind, value, start, end)

    def note_body(self, value, body):
        with self.lock:
            self.values[hashlib.sha256(body).digest()] = value
            self.tags[tag_of(body)] = (value, len(body))

    def note_version(self, key, reply, value):
        is_kept = key.startswith(f"/{KEPT}/")
        self.look_at((reply.version is not None) == is_kept, f"PUT of {value} to {key}: the version is {reply.version}")
        with self.lock:
            is_new = self.versions.setdefault((key, reply.version), value) == value or not is_kept
        self.look_at(is_new, f"PUT of {value} to {key}: the version {reply.version} was given before")

    def value_of(self, kind, key, reply):
        """What a GET or HEAD shows of a key."""
        if reply.status == 404:
            return GONE
        value, length = self.tags.get(reply.headers.get("etag"), ("a tag of no body", 0))
        told = int(reply.headers.get("content-length", -1))
        self.look_at(reply.status == 200 and told == length, f"{kind} of {key}: {reply.status} {reply.headers}, and {value} has {length} bytes")
        if kind == "GET":
            got = self.values.get(hashlib.sha256(reply.body).digest(), "a body that no PUT brought")
            self.look_at(got == value, f"GET of {key}: the tag of {value}, and the body of {got}")
            return got
        return value

    def look_at(self, holds, what):
        if not holds:
            with self.lock:
                self.odd.append(what)

    def record(self, key, kind, value, start, end):
        value = GONE if kind == "DELETE" else value
        with self.lock:
            self.calls[key].append(Call(kind in ("PUT", "DELETE"), value, start, end))

    def read_all(self, server):
        """Reads each key once."""
        with server.connect() as line:
            for key in self.keys:
                self.ask(line, "GET", key, None, None)

    def read_versions(self, server, most):
        """Reads some of the versions that were acknowledged."""
        known = [(key, version, value) for (key, version), value in self.versions.items() if version]
        dice = random.Random(self.seed)
        with server.connect() as line:
            for key, version, value in dice.sample(known, min(most, len(known))):
                reply = line.ask("GET", f"{key}?versionId={version}")
                got = self.values.get(hashlib.sha256(reply.body).digest())
                must(reply.status == 200 and got == value, f"GET of the version {version} of {key}: {reply.status}, {got} and not {value}")
        return min(most, len(known))

    def judge(self):
        """Raises what is wrong with the calls that were recorded."""
        must(not self.odd, f"{len(self.odd)} odd replies: {self.odd[:3]}")
        for key, calls in self.calls.items():
            why = wrong_of(calls)
            must(why is None, f"the calls of {key} are no history: {why}")

    def told(self):
        cut = sum(call.end == math.inf for calls in self.calls.values() for call in calls)
        return f"{self.done} calls, {self.refused} refused, {cut} cut or refused"


def tag_of(body):
    return f'"{hashlib.md5(body).hexdigest()}"'


def eight_keys():
    return [f"/{bucket}/key{number}" for bucket in (PLAIN, KEPT) for number in range(4)]
