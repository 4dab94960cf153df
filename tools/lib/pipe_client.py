"""What a client sees of the program: a request is written, and its reply read before the next one. Pipe is a `pipe` process."""

import re
import subprocess
import time


class Cut(Exception):
    """The process, or the connection, ended before it gave a whole reply."""


class Reply:
    """A reply: its status, its headers by their names in lower case, its body, and its Date and head as bytes."""

    def __init__(self, status, headers, body):
        self.status = status
        self.headers = headers
        self.body = body

    @property
    def version(self):
        """The version that the reply names."""
        return self.headers.get("x-amz-version-id")

    @property
    def is_marker(self):
        """Whether it names a delete marker."""
        return self.headers.get("x-amz-delete-marker") == "true"

    def __str__(self):
        return f"{self.status} {self.headers} {self.body[:400]!r}"


def request_of(method, target, body=None, headers=()):
    """The bytes of a request."""
    lines = [f"{method} {target} HTTP/1.1", "Host: store", *headers]
    if body is not None:
        lines.append(f"Content-Length: {len(body)}")
    return "\r\n".join([*lines, "", ""]).encode() + (body or b"")


class Talk:
    """Two streams: one that takes requests, and one that gives their replies."""

    def __init__(self, given, told):
        self.given, self.told = given, told
        # When the last reply had come, and how long it took from then on until the last request was given.
        self.heard, self.silence = time.monotonic(), 0.0

    def ask(self, method, target, body=None, headers=()):
        """The reply to a request. Cut where no whole one comes."""
        try:
            self.say(request_of(method, target, body, headers))
        finally:
            self.silence = time.monotonic() - self.heard
        reply = self.reply(method)
        self.heard = time.monotonic()
        return reply

    def say(self, bytes_of_requests):
        """Gives bytes of requests. Cut where they are not taken."""
        try:
            self.given.write(bytes_of_requests)
            self.given.flush()
        except (BrokenPipeError, ConnectionResetError):
            raise Cut from None

    def reply(self, method):
        """The next reply, which is that to a request of this method."""
        head = self.head()
        if head[0] == 100:
            head = self.head()
        status, headers = head
        length = 0 if method == "HEAD" or status == 204 else int(headers["content-length"])
        body = self.told.read(length)
        if len(body) < length:
            raise Cut
        return Reply(status, headers, body)

    def head(self):
        """The next head, as its status and its headers."""
        lines = []
        while not lines or lines[-1] != b"\r\n":
            line = self.told.readline()
            if not line.endswith(b"\n"):
                raise Cut
            lines.append(line)
        headers = {}
        for line in lines[1:-1]:
            name, _, value = line.decode("latin-1").rstrip("\r\n").partition(": ")
            headers[name.lower()] = value
        return int(lines[0].split()[1]), headers


# What the program says of its opening.
OPENING = re.compile(r"^ostore: (?:opened set .*|drive \d+ is out|the drives were new, .*|no --root: .*)\n", re.M)


class Pipe(Talk):
    """A program with these words before `pipe`."""

    def __init__(self, words, program):
        self.process = subprocess.Popen(
            [str(program), *words, "pipe"],
            stdin=subprocess.PIPE,
            stdout=subprocess.PIPE,
            stderr=subprocess.PIPE,
        )
        super().__init__(self.process.stdin, self.process.stdout)
        self.began = time.monotonic()

    def kill(self):
        """Ends the process by SIGKILL."""
        self.process.kill()

    def wait(self):
        """The exit status of a process that ends or was killed, and what it said on standard error but for its opening."""
        said = OPENING.sub("", self.process.stderr.read().decode(errors="replace")).strip()
        status = self.process.wait()
        for stream in (self.process.stdin, self.process.stdout, self.process.stderr):
            try:
                stream.close()
            except BrokenPipeError:
                pass
        return status, said

    def close(self):
        """Ends the input, and waits."""
        try:
            self.process.stdin.close()
        except BrokenPipeError:
            pass
        return self.wait()
