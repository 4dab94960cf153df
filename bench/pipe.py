#!/usr/bin/env python3
"""Sends requests through one `pipe` process, over drives in memory and over folders, for sets of 2+2 and 4+2 drives. For each
it prints
  - how long the opening took, and requests per second of PUTs of 1 KiB, each to a key of its own, and of as many GETs
  - over folders, the calls of the drives in one such PUT, by their kinds, and its fsyncs, of files and of folders: what one
    PUT more adds to the calls of the system (strace; Debian: apt-get install strace). A call that a drive answers from the
    names that it knows makes none: a look at a key that isn't there has one such size on each lane
  - MB/s of a PUT and of a GET of one large body (MB = 10^6 bytes), and the most resident memory of each process
Times are by the wall clock, and TMPDIR says on which disk the folders are. 20,000 requests of each kind in memory, 500 over
folders and a body of 1 GiB over folders, of 256 MiB in memory; with numbers: bench/pipe.py [MEMORY [FOLDERS [MIB]]]
"""

import itertools
import os
import pathlib
import re
import shutil
import subprocess
import sys
import tempfile
import threading
import time

sys.path.insert(0, str(pathlib.Path(__file__).resolve().parent.parent / "tools" / "lib"))
from drive_calls import kinds_of, traced
from program import program

PROGRAM = program()
SIZE = 1024
OK = b"HTTP/1.1 200 OK\r\n"
MAKE = b"PUT /bench HTTP/1.1\r\nContent-Length: 0\r\n\r\n"
# What a large body repeats.
PIECE = os.urandom((1 << 20) - 1)


def puts(count, first=0):
    """PUTs of 1 KiB, each to a key of its own."""
    for number in range(first, first + count):
        yield b"PUT /bench/k%d HTTP/1.1\r\nContent-Length: %d\r\n\r\n" % (number, SIZE) + b"x" * SIZE


def gets(count):
    for number in range(count):
        yield b"GET /bench/k%d HTTP/1.1\r\n\r\n" % number


class Process:
    """A `pipe` process, to which requests are written while its replies are read."""

    def __init__(self, words):
        self.began = time.monotonic()
        self.process = subprocess.Popen([PROGRAM, *words, "pipe"], stdin=subprocess.PIPE, stdout=subprocess.PIPE, bufsize=0)
        self.ask([b"GET / HTTP/1.1\r\n\r\n"], 1)
        self.opening = time.monotonic() - self.began

    def ask(self, requests, replies, length=0):
        """The seconds for requests that are answered 200, so often; the last reply has a body of `length` bytes that repeat PIECE."""
        began = time.monotonic()
        writer = threading.Thread(target=self.write, args=(requests,))
        writer.start()
        if length:
            self.read_large(length)
        else:
            self.read(replies)
        writer.join()
        return time.monotonic() - began

    def write(self, requests):
        with open(self.process.stdin.fileno(), "wb", buffering=1 << 20, closefd=False) as stream:
            stream.writelines(requests)

    def read(self, replies):
        """Reads up to this reply, and the documents behind it that have come."""
        told, found = b"", 0
        while found < replies:
            piece = self.process.stdout.read(1 << 16)
            if not piece:
                sys.exit(f"pipe.py: the program ended behind {found} replies of {replies}")
            told = told[-len(OK) + 1 :] + piece
            found += told.count(OK)

    def read_large(self, length):
        """Reads one reply with this body."""
        head = b""
        while b"\r\n\r\n" not in head:
            head += self.process.stdout.read(1)
        if not head.startswith(OK):
            sys.exit(f"pipe.py: a request was refused: {head!r}")
        with open(self.process.stdout.fileno(), "rb", buffering=1 << 20, closefd=False) as stream:
            for piece in body_of(length):
                if stream.read(len(piece)) != piece:
                    sys.exit("pipe.py: another body came back")

    def end(self):
        """Ends the input, and answers the most resident MiB, as the system tells them of the program alone."""
        told = pathlib.Path(f"/proc/{self.process.pid}/status").read_text()
        self.process.stdin.close()
        while self.process.stdout.read(1 << 16):
            pass
        if self.process.wait():
            sys.exit(f"pipe.py: the program ended with {self.process.returncode}")
        return int(re.search(r"VmHWM:\s*(\d+)", told)[1]) / 1024


def small(name, words, count):
    """Prints what the opening and small requests take, and makes the bucket."""
    process = Process(words)
    process.ask([MAKE], 1)
    put = process.ask(puts(count), count)
    get = process.ask(gets(count), count)
    print(
        f"{name}: opened in {process.opening * 1000:.0f} ms, {count} PUTs of 1 KiB {count / put:.0f} a second, "
        f"as many GETs {count / get:.0f} a second, at most {process.end():.0f} MiB",
        flush=True,
    )


def count(name, words, root):
    """Prints what one PUT of 1 KiB to a fresh key adds to the calls of the system, the mean of ten, and one to a key that is there."""
    if not shutil.which("strace"):
        print(f"{name}: strace is not installed, so nothing is counted")
        return
    for what, requests in (("a fresh key", lambda n: [*puts(n, 1_000_000 + 100 * n)]), ("a key that is there", lambda n: [*puts(n)])):
        one = kinds_of(traced(words, requests(1), 1), root)
        more = kinds_of(traced(words, requests(11), 11), root)
        each = {kind: (more[kind] - one[kind]) / 10 for kind in more}
        folders = each.pop("folder", 0)
        calls = ", ".join(f"{each[kind]:g} {kind}" for kind in ("size", "read", "append", "sync", "rename", "discard", "remove") if each.get(kind))
        syncs = each.get("sync", 0) + folders
        print(f"{name}: a PUT to {what}: {calls}; {syncs:g} fsyncs, {folders:g} of them of folders", flush=True)


def body_of(length):
    """A body of so many bytes, piece by piece."""
    while length > 0:
        yield PIECE[: min(length, len(PIECE))]
        length -= len(PIECE)


def large(name, words, mib, has_bucket, most=None):
    """Prints MB/s of a PUT and of a GET of one body, and the most resident memory, which may be limited, in MiB."""
    length = mib << 20
    process = Process(words)
    if not has_bucket:
        process.ask([MAKE], 1)
    head = b"PUT /bench/large HTTP/1.1\r\nContent-Length: %d\r\n\r\n" % length
    put = process.ask(itertools.chain([head], body_of(length)), 1)
    get = process.ask([b"GET /bench/large HTTP/1.1\r\n\r\n"], 1, length)
    rates = [length / 1e6 / seconds for seconds in (put, get)]
    memory = process.end()
    print(f"{name}: PUT of {mib} MiB {rates[0]:.0f} MB/s, GET {rates[1]:.0f} MB/s, at most {memory:.0f} MiB", flush=True)
    if most and memory > most:
        sys.exit(f"pipe.py: {memory:.0f} MiB were resident, and {most} is the most")


def main():
    numbers = [int(word) for word in sys.argv[1:]]
    in_memory, over_folders, mib = (*numbers, *[20_000, 500, 1024][len(numbers) :])
    for name, options in (("2+2", ["--drives", "4", "--parity", "2"]), ("4+2", ["--drives", "6", "--parity", "2"])):
        small(f"{name}, memory", options, in_memory)
        large(f"{name}, memory", options, min(mib, 256), False)
        with tempfile.TemporaryDirectory(prefix="bench_pipe-") as root:
            words = ["--root", root, *options]
            small(f"{name}, folders", words, over_folders)
            count(f"{name}, folders", words, root)
            large(f"{name}, folders", words, mib, True, 64)


main()
