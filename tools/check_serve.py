#!/usr/bin/env python3
"""Looks at `serve` as many clients at once do: tools/check_serve.py [full]

Each check prints a line with what it found:
  search     the search for a history of calls takes right ones and refuses wrong ones, as a read of a value that was replaced
  many       64 connections do PUTs, GETs, HEADs and DELETEs of 8 keys, each over a worker of its own. The calls of each key, as
             the clients recorded them, are those of one register: each GET has the body of a PUT that wasn't replaced before. No
             connection is cut, but where its client gave nothing for 9 seconds, as on a loaded machine: then all is done once more
  slow       8 clients beside 16 that give a byte a second of a head or body do at least half of the requests that they do alone
             before and after, in one of three tries; the slow ones are served as well
  killed     the server is killed in the midst of such calls and opened anew, and the calls of all its lives are such a history
  signals    SIGTERM and SIGINT end it, in the midst of calls and where it waits, and nothing that was acknowledged is lost
  addresses  it ends where the address is in use or is none, or where the root is in use
  queue      more connections than workers wait until a worker is free
  order      a client that holds its bytes back has each reply before the next request, `100 Continue` before a body, and a refusal
             that closes without one
  kept       beside all these a client asks for little every 6 seconds, for 66 seconds, and its connection isn't cut

64 connections do 12 calls each and two lives are killed; with the word `full` it is 200 calls and 20 lives. TMPDIR says on which
disk the folders are. Without it and without `full` they are in memory, where the system has a place for that, since a disk may
take seconds for an opening. Its last line is 'N passed, M failed'; it ends with 1 where a check failed.
"""

import pathlib
import random
import shutil
import signal
import sys
import tempfile
import threading
import time

sys.path.insert(0, str(pathlib.Path(__file__).resolve().parent / "lib"))
from histories import look_at_search
from program import prefer_memory
from serve_client import Cut, Failed, Server, at_once, must
from serve_load import PLAIN, WEIGHTS, Load, eight_keys

SMALL = 1024
# The server cuts a connection on which nothing came for 10 seconds. A client that gave nothing for so long has itself been idle.
IDLE = 9.0


class Sizes:
    """How much is done."""

    def __init__(self, is_full):
        self.clients, self.calls = (64, 200) if is_full else (64, 12)
        self.weights = WEIGHTS if is_full else WEIGHTS[:-1]
        self.slow, self.fast, self.seconds = (16, 8, 10) if is_full else (16, 8, 4)
        self.kills, self.before_kill = (20, 4.0) if is_full else (2, 1.0)


def last_line(said):
    return said.strip().split("\n")[-1]


class Slow:
    """A client that gives a byte a second: of a head, or of a body whose head it has given."""

    def __init__(self, server, number, is_body):
        self.key = f"/{PLAIN}/slow{number}"
        self.body = b"s" * 200
        head = f"PUT {self.key} HTTP/1.1\r\nHost: slow\r\nContent-Length: {len(self.body)}\r\n\r\n".encode()
        self.left = head + self.body
        self.line = server.connect()
        if is_body:
            self.give(len(head))
        self.is_over = threading.Event()
        self.thread = threading.Thread(target=self.go_on, daemon=True)
        self.thread.start()

    def give(self, count):
        self.line.socket.sendall(self.left[:count])
        self.left = self.left[count:]

    def go_on(self):
        try:
            while not self.is_over.wait(1):
                self.give(1)
        except OSError:
            pass

    def end(self):
        """Gives the rest at once, and looks at the reply."""
        self.is_over.set()
        self.thread.join()
        try:
            self.give(len(self.left))
            reply = self.line.reply("PUT")
            must(reply.status == 200, f"a slow PUT: {reply}")
        except (Cut, OSError) as why:
            raise Failed(f"a slow client was cut: {why!r}") from None
        finally:
            self.line.close()


def rate(server, clients, seconds):
    """Requests a second of clients that put and get 1 KiB each. None does less than a twentieth of what all do in the mean."""
    until = time.monotonic() + seconds
    counts = [0] * clients

    def go(number):
        with server.connect() as line:
            key = f"/{PLAIN}/fast{number}"
            while time.monotonic() < until:
                body = f"{number} {counts[number]} ".encode().ljust(SMALL, b"f")
                must(line.ask("PUT", key, body).status == 200, f"PUT of {key} is refused")
                for _ in range(3):
                    reply = line.ask("GET", key)
                    must(reply.status == 200 and reply.body == body, f"GET of {key}: {reply}")
                counts[number] += 4

    at_once([lambda number=number: go(number) for number in range(clients)])
    must(20 * clients * min(counts) >= sum(counts), f"a client isn't served beside the others: {counts}")
    return sum(counts) / seconds


class Kept:
    """A client that asks now and then, by a thread of its own, over a server of its own."""

    def __init__(self, server):
        self.server, self.why, self.idle = server, None, 0.0
        self.thread = threading.Thread(target=self.go_on, daemon=True)
        self.thread.start()

    def go_on(self):
        # Once more where the client itself was idle for too long, as on a loaded machine.
        for _ in range(2):
            self.why = self.asks()
            if self.why is None or self.idle < IDLE:
                return

    def asks(self):
        """Asks for the buckets twelve times, which are less than 1,024 bytes in all. Answers why not."""
        self.idle = 0.0
        try:
            with self.server.is_ready().connect() as line:
                for number in range(12):
                    time.sleep(6 if number else 0)
                    try:
                        reply = line.ask("GET", "/")
                    finally:
                        self.idle = max(self.idle, line.silence)
                    must(reply.status == 200, f"request {number + 1}: {reply}")
        except (Failed, Cut, OSError) as why:
            return f"{why!r} behind {self.idle:.1f} s"
        return None

    def end(self):
        """Waits until it is done."""
        self.thread.join()
        must(self.why is None, f"the connection was cut: {self.why}")
        return "a connection lives as long as its client asks"


class Checks:
    """The checks, and how many passed."""

    def __init__(self, work, sizes):
        self.work, self.sizes = work, sizes
        self.passed = self.failed = 0
        self.servers = []

    def check(self, name, work):
        """Counts a check, which says what it found."""
        began = time.monotonic()
        try:
            told = work()
            self.passed += 1
            print(f"{name}: {told or 'so it is'} ({time.monotonic() - began:.1f} s)", flush=True)
        except (Failed, Cut, OSError) as why:
            self.failed += 1
            print(f"check_serve: {name}: {why!r}", file=sys.stderr, flush=True)
            for server in self.servers:
                if server.process.poll() is not None:
                    print(f"check_serve: {name}: a server ended with {server.process.returncode}: {server.words()[-2000:]}", file=sys.stderr, flush=True)
        finally:
            for server in self.servers:
                with server:
                    pass
            self.servers.clear()

    def root(self, name):
        root = self.work / name
        root.mkdir()
        return root

    def serve(self, root, workers, listen="127.0.0.1:0"):
        server = Server(root, workers, listen)
        self.servers.append(server)
        return server

    def search(self):
        why = look_at_search()
        must(why is None, why)
        return "it takes what is right and refuses what is wrong"

    def many(self):
        """Many connections at once, each with a worker, on few keys; once more where some were cut since their clients were idle."""
        told, idle = self.many_at("many")
        if idle:
            print(f"many: a client gave nothing for {idle:.0f} s and was cut, so once more", flush=True)
            told, idle = self.many_at("many again")
        must(not idle, f"a connection was cut, in both tries, and its client had given nothing for {idle:.0f} s")
        return told

    def many_at(self, name):
        """What came of it, and how long an idle client was that was cut, if there is one."""
        sizes, load = self.sizes, Load(eight_keys(), name, self.sizes.weights)
        server = self.serve(self.root(name), sizes.clients).is_ready()
        load.make_buckets(server)
        began = time.monotonic()
        load.run(server, sizes.clients, sizes.calls)
        seconds = time.monotonic() - began
        idle = min(load.silences, default=0.0)
        is_whole = load.done + load.refused == sizes.clients * sizes.calls
        must(is_whole or idle >= IDLE, f"a connection was cut {idle:.1f} s behind the last bytes of its client: {load.told()}")
        must(load.refused == 0, f"calls were refused while all drives serve: {load.told()}")
        load.read_all(server)
        versions = load.read_versions(server, 500)
        load.judge()
        return f"{sizes.clients} connections, {load.told()}, {load.done / seconds:.0f} a second, {versions} versions read", idle

    def slow(self):
        """Slow clients beside fast ones."""
        sizes = self.sizes
        server = self.serve(self.root("slow"), sizes.slow + sizes.fast).is_ready()
        with server.connect() as line:
            must(line.ask("PUT", f"/{PLAIN}", b"").status == 200, "the bucket is not made")
        best = (0.0, "")
        for _ in range(3):
            before = rate(server, sizes.fast, sizes.seconds)
            slow = [Slow(server, number, number % 2) for number in range(sizes.slow)]
            beside = rate(server, sizes.fast, sizes.seconds)
            at_once([each.end for each in slow])
            alone = (before + rate(server, sizes.fast, sizes.seconds)) / 2
            best = max(best, (beside / alone, f"{beside:.0f} requests a second beside {sizes.slow} slow clients, {alone:.0f} without"))
            if best[0] >= 0.5:
                break
        must(best[0] >= 0.5, f"{best[1]}: {best[0]:.2f} of it")
        return f"{best[1]}: {best[0]:.2f} of it"

    def killed(self):
        """The server is killed in the midst of calls, and opened anew."""
        sizes, load = self.sizes, Load(eight_keys(), "killed", self.sizes.weights)
        root = self.root("killed")
        dice = random.Random()
        cut = 0
        for number in range(sizes.kills + 1):
            server = self.serve(root, sizes.clients).is_ready()
            if number == 0:
                load.make_buckets(server)
            load.read_all(server)
            if number == sizes.kills:
                break
            killer = threading.Timer(sizes.before_kill * (0.2 + dice.random()), server.process.kill)
            killer.start()
            load.run(server, sizes.clients, 1_000_000)
            killer.join()
            status, _ = server.ended()
            must(status == -signal.SIGKILL, f"the server ended with {status}")
        load.read_versions(server, 500)
        load.judge()
        must(load.refused == 0, f"calls were refused while all drives serve: {load.told()}")
        return f"{sizes.kills} kills, {load.told()}"

    def signalled(self):
        """SIGTERM and SIGINT end it, in the midst of calls and where it waits."""
        load, root, told = Load(eight_keys(), "signalled", self.sizes.weights), self.root("signalled"), []
        for which in (signal.SIGTERM, signal.SIGINT):
            server = self.serve(root, 16).is_ready()
            if not told:
                load.make_buckets(server)
            load.read_all(server)
            sender = threading.Timer(0.5, server.send, (which,))
            sender.start()
            load.run(server, 15, 1_000_000)
            sender.join()
            status, said = server.ended(10)
            must(status == -which, f"{which.name}: the server ended with {status}: {said}")
            must(last_line(said).startswith("ostore: opened "), f"{which.name}: it said {said}")
            told.append(f"{which.name} ends it, as a shell tells it with status {128 + which}")
        server = self.serve(root, 1).is_ready()
        load.read_all(server)
        server.send(signal.SIGTERM)
        status, _ = server.ended(10)
        must(status == -signal.SIGTERM, f"SIGTERM where it waits: the server ended with {status}")
        load.judge()
        return ", ".join(told)

    def address(self):
        """An address that is in use, one that is none, and a root that is in use."""
        first_root, second_root = self.root("first"), self.root("second")
        first = self.serve(first_root, 2).is_ready()
        at = f"{first.address[0]}:{first.address[1]}"
        for name, root, listen, wanted in (
            ("an address that is in use", second_root, at, (4, "read fault")),
            ("an address that is none", second_root, "nowhere", (4, "read fault")),
            ("a root that is in use", first_root, "127.0.0.1:0", (3, "opening refused")),
        ):
            status, said = self.serve(root, 2, listen).ended(30)
            must(name.startswith("a root") or f"ostore: can't listen on {listen}\n" in said, f"{name}: it does not say so: {said}")
            must((status, last_line(said)) == (wanted[0], f"ostore: {wanted[1]}"), f"{name}: the server ended with {status} and said {said}")
        with first.connect() as line:
            must(line.ask("GET", "/").status == 200, "the first server serves no more")
        return "status 4 and 'read fault', as where it is none; a root that is in use has status 3"

    def order(self):
        """Each reply is given before more is read: a client that holds its bytes back sees it."""
        server = self.serve(self.root("order"), 1).is_ready()
        refused = b"PUT /order/a HTTP/1.1\r\nHost: order\r\n%s\r\n"
        with server.connect() as line:
            for target, wanted in (("/order", 200), ("/order", 409)):
                reply = line.ask("PUT", target, b"")
                must(reply.status == wanted, f"PUT of {target}: {reply}")
            line.say(refused % b"Content-Length: 4\r\nExpect: 100-continue\r\n")
            must(line.head() == (100, {}), "a body that is awaited is not asked for")
            line.say(b"abcd")
            must(line.reply("PUT").status == 200, "a body that was awaited is not taken")
        for name, request, wanted in (
            ("no length", refused % b"", (411, "close")),
            ("too long a body", refused % b"Content-Length: 5368709121\r\n", (400, "close")),
            ("HTTP/1.0", b"HEAD /order/a HTTP/1.0\r\nHost: order\r\n\r\n", (200, "close")),
        ):
            with server.connect() as line:
                line.say(request)
                reply = line.reply(request.split()[0].decode())
                must((reply.status, reply.headers.get("connection")) == wanted, f"{name}: {reply}")
                must(line.told.read(1) == b"", f"{name}: the connection goes on")
        return "a reply comes before the next request is read, and what closes waits for no body"

    def queue(self):
        """More connections than workers wait until a worker is free."""
        server = self.serve(self.root("queue"), 2).is_ready()
        lines = [server.connect() for _ in range(4)]
        for line in lines[:2]:
            must(line.ask("GET", "/").status == 200, "one of two connections is not served")
        for line in lines[2:]:
            line.given.write(b"GET / HTTP/1.1\r\nHost: queue\r\n\r\n")
            line.given.flush()
            line.socket.settimeout(0.5)
            try:
                must(line.socket.recv(1) == b"", "a connection is served without a worker")
                raise Failed("a connection that waits is cut")
            except TimeoutError:
                pass
        for line in lines[:2]:
            line.close()
        for line in lines[2:]:
            line.socket.settimeout(20)
            line.told = line.socket.makefile("rb")
            must(line.reply("GET").status == 200, "a connection that waited is not served")
            line.close()
        return "two connections wait while two are served"


def main():
    is_full = sys.argv[1:] == ["full"]
    if sys.argv[1:] and not is_full:
        sys.exit("check_serve: the words are none, or `full`")
    if not is_full:
        prefer_memory()
    folder = pathlib.Path(tempfile.mkdtemp(prefix="check_serve-"))
    checks = Checks(folder, Sizes(is_full))
    server = Server(checks.root("kept"), 1)
    try:
        kept = Kept(server)
        checks.check("search", checks.search)
        checks.check("many", checks.many)
        checks.check("slow", checks.slow)
        checks.check("killed", checks.killed)
        checks.check("signals", checks.signalled)
        checks.check("addresses", checks.address)
        checks.check("queue", checks.queue)
        checks.check("order", checks.order)
        checks.check("kept", kept.end)
    finally:
        with server:
            pass
        shutil.rmtree(folder, ignore_errors=True)
    print(f"{checks.passed} passed, {checks.failed} failed")
    sys.exit(checks.failed > 0)


main()
