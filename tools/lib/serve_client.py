"""A process of `serve`, and the connections of a client to it."""

import os
import pathlib
import re
import signal
import socket
import subprocess
import tempfile
import threading
import time

from pipe_client import Cut, Talk
from program import program

PROGRAM = program()
LISTENS = re.compile(r"^ostore: listening on (\S+):(\d+)(?:,|$)", re.M)
# How long a client waits for a reply, in seconds.
PATIENCE = 120


class Failed(Exception):
    """Something is not as it is to be."""


def must(holds, what):
    if not holds:
        raise Failed(what)


def as_usual():
    """Has the signals of a process do what they usually do, also where the shell that runs the check has them passed over."""
    for which in (signal.SIGINT, signal.SIGTERM, signal.SIGHUP):
        signal.signal(which, signal.SIG_DFL)


class Server:
    """The program's command `serve`, on a port that the system chooses unless one is named, with other options, and other words in front, as of strace."""

    def __init__(self, root, workers, listen="127.0.0.1:0", front=(), words=()):
        self.said = tempfile.TemporaryFile("w+")
        self.process = subprocess.Popen(
            [*front, PROGRAM, "--root", str(root), "--listen", listen, "--workers", str(workers), *words, "serve"],
            stdin=subprocess.DEVNULL,
            stderr=self.said,
            preexec_fn=as_usual,
        )
        self.address = None

    def words(self):
        """What it has said on standard error."""
        self.said.seek(0)
        return self.said.read()

    def listens(self, seconds=PATIENCE):
        """Waits until it says where it listens."""
        until = time.monotonic() + seconds
        while not (told := LISTENS.search(self.words())):
            must(self.process.poll() is None, f"the server ended with {self.process.returncode}: {self.words()}")
            must(time.monotonic() < until, f"the server does not listen: {self.words()}")
            time.sleep(0.02)
        self.address = (told[1], int(told[2]))
        return self

    def is_ready(self):
        """Waits until a call is answered."""
        with self.listens().connect() as line:
            must(line.ask("GET", "/").status == 200, "the buckets are not listed")
        return self

    def connect(self):
        return Line(self.address)

    def send(self, which):
        self.process.send_signal(which)

    def kill_below(self):
        """Kills the processes that it started, and waits for its own end."""
        below = pathlib.Path(f"/proc/{self.process.pid}/task/{self.process.pid}/children").read_text().split()
        for each in below:
            os.kill(int(each), signal.SIGKILL)
        self.process.wait(PATIENCE)

    def ended(self, seconds=PATIENCE):
        """Its exit status, which is minus the signal that ended it, and its last words."""
        try:
            status = self.process.wait(seconds)
        except subprocess.TimeoutExpired:
            self.process.kill()
            self.process.wait()
            raise Failed(f"the server did not end within {seconds} s") from None
        return status, self.words()

    def __enter__(self):
        return self

    def __exit__(self, *_):
        if self.process.poll() is None:
            self.process.kill()
            self.process.wait()


class Line(Talk):
    """A connection to a server."""

    def __init__(self, address):
        try:
            self.socket = socket.create_connection(address, PATIENCE)
        except OSError:
            raise Cut from None
        self.socket.setsockopt(socket.IPPROTO_TCP, socket.TCP_NODELAY, 1)
        super().__init__(self.socket.makefile("wb"), self.socket.makefile("rb"))

    def ask(self, method, target, body=None, headers=()):
        try:
            return super().ask(method, target, body, headers)
        except OSError as why:
            must(not isinstance(why, TimeoutError), f"{method} {target}: no reply within {PATIENCE} s")
            raise Cut from None

    def close(self):
        for stream in (self.given, self.told, self.socket):
            try:
                stream.close()
            except OSError:
                pass

    def __enter__(self):
        return self

    def __exit__(self, *_):
        self.close()


def at_once(works):
    """Does works beside one another, each by a thread, and raises what one of them raised."""
    raised = []

    def do(work):
        try:
            work()
        except Exception as why:
            raised.append(why)

    threads = [threading.Thread(target=do, args=(work,), daemon=True) for work in works]
    for thread in threads:
        thread.start()
    for thread in threads:
        thread.join()
    if raised:
        raise raised[0]
