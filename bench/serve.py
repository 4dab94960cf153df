#!/usr/bin/env python3
"""Has 1 and 8 clients put and get bodies of 1 KiB, 1 MiB, 16 MiB and 256 MiB over served folders of 2+2 and of 4+2 drives, with all
drives and with the first one out. For each it prints
  - requests a second and MB/s (MB = 10^6 bytes), by the wall clock
  - the processor milliseconds that the server took a MB of bodies, or a request of 1 KiB, those of the program and those of the system
  - how many fsyncs a request makes, as strace counts them in a run of its own (Debian: apt-get install strace), and of the PUTs of 1 KiB
    how many a second that are, to those that the disk gave to one process and to the most that it gave
and for one client's bodies of 16 MiB and more
  - of which parts these milliseconds are, as perf samples them (Debian: apt-get install linux-perf): SHA-256, MD5, the code, copies and
    zeros of the program, and what else the program and the system do
The disk's own fsyncs a second are counted in the same run, before and behind the requests, and the mean of both is taken: 1, 4 and 16
processes at once write a file of 4 KiB, sync it, rename it and sync its folder, each for two seconds, as a drive does for each file.
The server has 16 workers. Each client is a process with a connection, and has keys of its own. TMPDIR says on which disk the folders
are; 24 GB of it are wanted, and 5 GB of memory. bench/serve.py [SHARE] makes so many hundredths of the requests, 100 without it;
with 10 only bodies up to 16 MiB over 2+2 drives.
"""

import contextlib
import multiprocessing
import os
import pathlib
import re
import shutil
import signal
import subprocess
import sys
import tempfile
import time

sys.path.insert(0, str(pathlib.Path(__file__).resolve().parent.parent / "tools" / "lib"))
from drive_files import Drive
from serve_client import Failed, Server, must

WORKERS = 16
KIB, MIB = 1 << 10, 1 << 20
# What each client asks for: the size of its bodies, and how many it puts and gets.
BODIES = {KIB: (100, 1_000), MIB: (20, 100), 16 * MIB: (6, 12), 256 * MIB: (1, 2)}
SETS = {"2+2": (4, 2), "4+2": (6, 2)}
# How long the disk's own fsyncs are counted, in seconds, and by how many processes at once.
LOOK, BESIDE = 2, (1, 4, 16)
FORKS = multiprocessing.get_context("fork")
TICKS = os.sysconf("SC_CLK_TCK")
# The parts of the server's work, by the names of its functions; what none of them matches is said as the program's or the system's own.
PARTS = {
    "SHA-256": r"hash_lanes|sha2",
    "MD5": r"md5",
    "code": r"code_lanes|poly_code|parity",
    "copies": r"memmove|memcpy",
    "zeros": r"memset",
}


def all_at_once(works):
    """Has a process of its own do each work, which is begun by what it is given, and answers the seconds from the first to the last."""
    gate = FORKS.Barrier(len(works) + 1)
    processes = [FORKS.Process(target=work, args=(gate.wait,)) for work in works]
    for process in processes:
        process.start()
    gate.wait()
    began = time.monotonic()
    for process in processes:
        process.join()
    seconds = time.monotonic() - began
    must(not any(process.exitcode for process in processes), "a client failed")
    return seconds


def sync_for_a_while(folder, begin, count):
    """Writes a file, syncs it, puts it in place, and syncs its folder, time and again, as a drive does."""
    folder.mkdir()
    handle = os.open(folder, os.O_RDONLY)
    begin()
    until = time.monotonic() + LOOK
    while time.monotonic() < until:
        file = os.open(folder / "loose", os.O_CREAT | os.O_WRONLY | os.O_TRUNC, 0o600)
        os.write(file, b"x" * 4096)
        os.fsync(file)
        os.close(file)
        os.rename(folder / "loose", folder / "file")
        os.fsync(handle)
        with count.get_lock():
            count.value += 2
    shutil.rmtree(folder)


def disk_rates(work):
    """The disk's fsyncs a second, by how many processes sync at once."""
    rates = {}
    for beside in BESIDE:
        count = FORKS.Value("q", 0)
        folders = [work / f"disk{number}" for number in range(beside)]
        all_at_once([lambda begin, folder=folder: sync_for_a_while(folder, begin, count) for folder in folders])
        rates[beside] = count.value / LOOK
    print("the disk: " + ", ".join(f"{rates[beside]:.0f} fsyncs a second by {beside} at once" for beside in BESIDE), flush=True)
    return rates


def client(server, begin, number, count, rounds, size, method):
    """Puts or gets keys of its own, so many, time and again."""
    with server.connect() as line:
        body = os.urandom(size) if method == "PUT" else None
        must(line.ask("GET", "/").status == 200, "the buckets are not listed")
        begin()
        for each in range(count * rounds):
            key = f"/bench/{size}.{number}.{each % count}"
            reply = line.ask(method, key, body)
            must(reply.status == 200, f"{method} of {key}: {reply}")
            must(method == "PUT" or len(reply.body) == size, f"{method} of {key}: {len(reply.body)} bytes")


def seconds_of(server, clients, count, rounds, size, method):
    works = [lambda begin, number=number: client(server, begin, number, count, rounds, size, method) for number in range(clients)]
    return all_at_once(works)


def processor_of(server):
    """The processor seconds of the server's program, and those that the system took for it."""
    fields = pathlib.Path(f"/proc/{server.process.pid}/stat").read_text().rpartition(")")[2].split()
    return int(fields[11]) / TICKS, int(fields[12]) / TICKS


@contextlib.contextmanager
def sampled(server, where):
    """Has perf sample the server meanwhile; gives a list that has the share of each part at the end, and none without perf."""
    shares = []
    if where is None or not shutil.which("perf"):
        yield shares
        return
    words = ["perf", "record", "-q", "-F", "499", "-p", str(server.process.pid), "-o", str(where)]
    perf = subprocess.Popen(words, stdin=subprocess.DEVNULL, stdout=subprocess.DEVNULL, stderr=subprocess.DEVNULL)
    time.sleep(0.5)
    yield shares
    perf.send_signal(signal.SIGINT)
    perf.wait()
    told = subprocess.run(["perf", "report", "-q", "-i", str(where), "--sort", "symbol"], capture_output=True, text=True).stdout
    shares += parts_of(told).items()
    where.unlink(missing_ok=True)


def parts_of(told):
    """The share of each part, in hundredths, by a report of perf."""
    parts = dict.fromkeys([*PARTS, "the program's else", "the system's"], 0.0)
    for share, mode, name in re.findall(r"^\s*([\d.]+)%\s+\[(.)\]\s+(\S+)", told, re.M):
        here = "the system's" if mode == "k" else next((part for part, names in PARTS.items() if re.search(names, name)), "the program's else")
        parts[here] += float(share)
    return parts


def fsyncs_each(work, size, words):
    """How many fsyncs a PUT and a GET make: those of three, as strace tells them. None without strace."""
    if not shutil.which("strace"):
        return {"PUT": None, "GET": None}
    root, trace = work / "traced", work / "trace"
    root.mkdir()
    made = {}
    with Server(root, 1, front=["strace", "-f", "-e", "trace=fsync,fdatasync", "-o", str(trace)], words=words) as server:
        with server.is_ready().connect() as line:
            must(line.ask("PUT", "/bench", b"").status == 200, "the bucket is not made")
        for method in ("PUT", "GET"):
            before = synced(trace)
            seconds_of(server, 1, 3, 1, size, method)
            made[method] = (synced(trace) - before) / 3
        server.kill_below()
    shutil.rmtree(root)
    return made


def synced(trace):
    """How many calls began, once no more come."""
    count = -1
    while count != (now := sum("sync(" in line for line in trace.read_text().splitlines())):
        count = now
        time.sleep(0.3)
    return count


class Measured:
    """What was measured of one kind of requests, by so many clients."""

    def __init__(self, method, size, clients, requests, seconds, processor, shares):
        self.method, self.size, self.clients, self.requests = method, size, clients, requests
        self.seconds, self.processor, self.shares = seconds, processor, shares
        self.bytes = requests * size / 1e6

    def told(self, fsyncs, disk):
        """A line of it, and a second one of the parts where they were sampled."""
        size = f"{self.size // MIB} MiB" if self.size >= MIB else f"{self.size // KIB} KiB"
        line = f"  {self.method} of {size}, {self.clients} client{'s' if self.clients > 1 else ''}: "
        line += f"{self.requests / self.seconds:.1f} requests a second, {self.bytes / self.seconds:.1f} MB/s"
        much, unit = (self.requests, "request") if self.size == KIB else (self.bytes, "MB")
        program, system = (1000 * each / much for each in self.processor)
        line += f"; {program:.2f} ms of the processor a {unit}, and {system:.2f} of the system"
        if fsyncs is not None:
            line += f"; {fsyncs:g} fsyncs each"
        if fsyncs and self.size == KIB:
            made = fsyncs * self.requests / self.seconds
            line += f", {made:.0f} a second, {made / disk[1]:.2f} of the disk's by one, {made / max(disk.values()):.2f} of the most"
        if self.shares:
            each = ", ".join(f"{part} {share * (program + system) / 100:.2f}" for part, share in self.shares)
            line += f"\n    ms a MB: {each}"
        return line


def measured(server, clients, size, counts, methods, samples):
    """Puts and then gets bodies of a size by so many clients at once."""
    for method in methods:
        puts, gets = counts
        rounds = max(1, gets // puts) if method == "GET" else 1
        before = processor_of(server)
        with sampled(server, samples if clients == 1 and size >= 16 * MIB else None) as shares:
            seconds = seconds_of(server, clients, puts, rounds, size, method)
            after = processor_of(server)
        used = [late - early for early, late in zip(before, after)]
        yield Measured(method, size, clients, clients * puts * rounds, seconds, used, shares)


def over_set(work, words, bodies):
    """All of one set: with all drives, and with the first one out, whose folder is moved away before the server starts anew."""
    root = work / "store"
    root.mkdir()
    found = {}
    for state in ("all drives", "one drive out"):
        if state == "one drive out":
            Drive(root / "0").move_away()
            # A file stands in the place of the folder, so that the drive can't be made anew.
            (root / "0").write_bytes(b"")
        found[state] = []
        with Server(root, WORKERS, words=words).is_ready() as server:
            if state == "all drives":
                with server.connect() as line:
                    must(line.ask("PUT", "/bench", b"").status == 200, "the bucket is not made")
            for size, counts in bodies.items():
                for clients in (8, 1):
                    # What is got with a drive out was put while it was there.
                    methods = ("PUT", "GET") if state == "all drives" else ("GET", "PUT")
                    found[state] += measured(server, clients, size, counts, methods, work / "samples")
    shutil.rmtree(root)
    return found


def main():
    share = int(sys.argv[1]) if len(sys.argv) > 1 else 100
    must(1 <= share <= 100, "a share is 1 to 100")
    bodies = {size: tuple(max(1, count * share // 100) for count in counts) for size, counts in BODIES.items() if share > 10 or size < 256 * MIB}
    sets = SETS if share > 10 else {"2+2": SETS["2+2"]}
    work = pathlib.Path(tempfile.mkdtemp(prefix="bench_serve-"))
    try:
        for name, (drives, parity) in sets.items():
            words = ["--drives", str(drives), "--parity", str(parity)]
            fsyncs = {size: fsyncs_each(work, size, words) for size in bodies}
            first = disk_rates(work)
            found = over_set(work, words, bodies)
            last = disk_rates(work)
            disk = {beside: (first[beside] + last[beside]) / 2 for beside in BESIDE}
            for state, rows in found.items():
                print(f"{name}, {state}:", flush=True)
                for row in sorted(rows, key=lambda it: (it.size, it.method == "GET", it.clients)):
                    print(row.told(fsyncs[row.size][row.method] if state == "all drives" else None, disk), flush=True)
    except Failed as why:
        sys.exit(f"serve.py: {why}")
    finally:
        shutil.rmtree(work, ignore_errors=True)


main()
