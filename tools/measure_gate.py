#!/usr/bin/env python3
"""Measures what a gate costs: the processor minutes of each crate's proof, of its tests' and of its must-fail edits.

    tools/measure_gate.py COMMAND..      runs the command, as `rt ci`, and prints a table when it has ended
    tools/measure_gate.py --beside PID   looks at what a process has started, until it is told to end (SIGTERM), and prints the table
    tools/measure_gate.py --beside PID --verdict FILE LOG..
                                         does so, and writes FILE too: the day, the kit, what each LOG says has passed, and the table

`docs/GATE.txt` is such a FILE, of the last gate that was kept. It looks each second at the provers that the command has started, and adds up the processor time that each of them had used
when it was last seen. Of a crate that an earlier run kept nothing is seen, so measure where nothing is kept. All crates of
crates.txt have a row, and the last line is the sum, with the minutes that the command took and the number of processors.
A LOG's verdict is its last line 'N passed, M failed'; one without such a line has none, since it was cut off before.
"""

import collections
import datetime
import os
import pathlib
import re
import shutil
import signal
import subprocess
import sys
import time

TICKS = os.sysconf("SC_CLK_TCK")


def words_of(process):
    return (process / "cmdline").read_bytes().decode(errors="replace").split("\0")


def fields_of(process):
    """The fields of a process's line from its state on (proc(5))."""
    return (process / "stat").read_text().rpartition(")")[2].split()


def seconds_of(process):
    """The processor seconds of a process and of its children that have ended."""
    return sum(int(field) for field in fields_of(process)[11:15]) / TICKS


def is_below(process, ancestor):
    """Whether a process was started by another, or by one that it started."""
    number = int(process.name)
    while number > 1:
        if number == ancestor:
            return True
        number = int(fields_of(pathlib.Path("/proc") / str(number))[1])
    return False


def kind_of(words, folder):
    if "rt-edit" in folder:
        return "edits"
    if "--test" in words:
        return "tests"
    return "proof"


def look(seen, ancestor):
    """Notes the processor time of each prover that runs now for the command."""
    for process in pathlib.Path("/proc").iterdir():
        if not process.name.isdigit():
            continue
        try:
            words = words_of(process)
            if not words[0].endswith("/rattle") or "--crate-name" not in words:
                continue
            if not is_below(process, ancestor):
                continue
            crate = words[words.index("--crate-name") + 1]
            kind = kind_of(words, os.readlink(process / "cwd"))
            seen[process.name, crate, kind] = seconds_of(process)
        except (OSError, IndexError, ValueError):
            continue


def crates():
    """The names of the repository's crates."""
    top = pathlib.Path(__file__).resolve().parent.parent
    return [line.partition(":")[0] for line in (top / "crates.txt").read_text().splitlines() if line[:1].isalpha()]


def rows_of(seen):
    """A row for each crate, and one for all: its name and the processor minutes of proof, tests, edits and all three."""
    spent = {crate: collections.Counter() for crate in crates()}
    for (_, crate, kind), seconds in seen.items():
        spent.setdefault(crate, collections.Counter())[kind] += seconds / 60
    total = collections.Counter()
    for it in spent.values():
        total.update(it)
    for crate, it in [*sorted(spent.items()), ("all", total)]:
        row = [it[kind] for kind in ("proof", "tests", "edits")]
        yield crate, [*row, sum(row)]


def took(seen, minutes):
    *_, (_, total) = rows_of(seen)
    return f"{total[-1]:.0f} processor minutes, in {minutes:.0f} minutes on {os.cpu_count()} processors"


def print_table(seen, minutes):
    print("| Crate | Proof | Tests | Edits | Sum |\n|---|---|---|---|---|")
    for crate, row in rows_of(seen):
        name = crate if crate == "all" else f"`{crate}`"
        print(f"| {name} | {' | '.join(f'{it:.1f}' for it in row)} |")
    print(took(seen, minutes))


def kit():
    """The kit that `rt` is of: the first line of the file KIT-ID beside it, or what `rt version` says."""
    command = shutil.which("rt")
    for folder in pathlib.Path(command).resolve().parents if command else ():
        if (folder / "KIT-ID").is_file():
            return (folder / "KIT-ID").read_text().split("\n")[0]
    ran = subprocess.run(["rt", "version"], capture_output=True, text=True) if command else None
    return ran.stdout.split("\n")[0] if ran else "unknown"


def verdict_of(log):
    """The last line of a log that counts what passed."""
    text = pathlib.Path(log).read_text(errors="replace") if pathlib.Path(log).is_file() else ""
    found = re.findall(r"^\d+ passed, \d+ failed.*$", text, re.M)
    return found[-1] if found else "none: it was cut off"


def write_verdict(path, logs, seen, minutes):
    """Writes what docs/GATE.txt has. A crate of which no prover was seen was kept from an earlier run."""
    lines = [
        "The last gate that was kept: what passed, and what each crate cost in processor minutes. tools/measure_gate.py writes",
        "it; .ci/run compares its own run with it. A crate that an earlier run on the machine had proved says kept.",
        "",
        f"day: {datetime.datetime.now(datetime.timezone.utc):%Y-%m-%d}",
        f"kit: {kit()}",
        *(f"{pathlib.Path(it).name}: {verdict_of(it)}" for it in logs),
        f"took: {took(seen, minutes)}",
        "",
        f"{'crate':<18}{'proof':>8}{'tests':>8}{'edits':>8}{'sum':>8}",
    ]
    for crate, row in rows_of(seen):
        lines.append(f"{crate:<18}" + ("    kept" if not row[-1] else "".join(f"{it:>8.1f}" for it in row)))
    pathlib.Path(path).write_text("\n".join(lines) + "\n")


def measure_run(command):
    """Runs a command, and prints the table of its provers."""
    seen, began = {}, time.monotonic()
    run = subprocess.Popen(command)
    while run.poll() is None:
        look(seen, run.pid)
        time.sleep(1)
    print_table(seen, (time.monotonic() - began) / 60)
    return run.returncode


def measure_beside(ancestor, verdict=None, logs=()):
    """Prints the table of the provers below a process, once it is told to end, and writes the verdict where one is asked for."""
    seen, ended, began = {}, [], time.monotonic()
    signal.signal(signal.SIGTERM, lambda *_: ended.append(True))
    while not ended:
        look(seen, ancestor)
        time.sleep(1)
    minutes = (time.monotonic() - began) / 60
    print_table(seen, minutes)
    if verdict:
        write_verdict(verdict, logs, seen, minutes)
    return 0


def main():
    if len(sys.argv) == 3 and sys.argv[1] == "--beside":
        return measure_beside(int(sys.argv[2]))
    if len(sys.argv) > 4 and sys.argv[1] == "--beside" and sys.argv[3] == "--verdict":
        return measure_beside(int(sys.argv[2]), sys.argv[4], sys.argv[5:])
    if len(sys.argv) == 1:
        print(__doc__, file=sys.stderr)
        return 2
    return measure_run(sys.argv[1:])


if __name__ == "__main__":
    sys.exit(main())
