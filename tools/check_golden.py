#!/usr/bin/env python3
"""Compares what the generators tools/golden_*.py print with the tests and rows that have it.

Each constant and each row that a generator prints must stand in the file named beside it, whatever the layout of
lines; in the rows of a program its bytes stand as hex digits, and its numbers side by side. A generator of rows prints
lines of a file, which must stand there as they are. Rows must be the same in stdin and stdout. The last line is
'N passed, M failed'; it ends with 1 where one failed.
"""

import pathlib
import re
import subprocess
import sys

TOP = pathlib.Path(__file__).resolve().parent.parent

# The rows that have what most generators print.
ROWS = "crates/trial_records/stdin"
REGISTERS = "crates/trial_registers/stdin"

# A generator with its arguments, and the file that has what it prints.
GOLDEN = [
    (["golden_register.py"], ROWS),
    (["golden_format.py"], REGISTERS),
    (["golden_manifest.py"], ROWS),
    (["golden_shards.py"], ROWS),
    (["golden_book.py"], ROWS),
    (["golden_book.py", "parts"], ROWS),
]

# A generator of rows, and the file that has them.
GOLDEN_ROWS = [
    ("golden_codes.py", "crates/trial_codes/stdin"),
    ("golden_stage.py", "crates/trial_bodies/stdin"),
    ("golden_verdicts.py", REGISTERS),
]


def without_layout(text):
    """The text without comments, white space, `pub` and commas before a closing bracket."""
    text = re.sub(r"//[^\n]*", "", text)
    text = re.sub(r"\bpub\s+", "", text)
    text = re.sub(r"\s+", "", text)
    return re.sub(r",(?=[\])}])", "", text)


def items(printed):
    """The constants that are printed, and the rows outside of them."""
    printed = re.sub(r"//[^\n]*", "", printed)
    for piece in re.split(r"(?<=;)\s*\n|(?<=\),)\n(?=\(|\s*$|\n)", printed):
        if piece.strip():
            yield piece


def arrays(item):
    """The arrays of bytes of an item, in hex digits."""
    for array in re.findall(r"\[([^\[\]]*)\]", item):
        numbers = re.findall(r"0x([0-9a-f]{2})", array)
        if numbers:
            yield "".join(numbers)


def is_in_rows(item, rows):
    """Whether each array of the item stands in the rows, or its numbers do, side by side."""
    found = list(arrays(item))
    if found:
        return all(digits in rows for digits in found)
    numbers = " ".join(re.findall(r"\d+", item))
    return f" {numbers}\n" in rows.replace(" = ", " ")


def printed_by(*words):
    """What a generator prints."""
    run = subprocess.run([sys.executable, str(TOP / "tools" / words[0]), *words[1:]], capture_output=True, text=True, check=True)
    return run.stdout


def lacking_rows(generator, place):
    """The rows of a generator that the file lacks, and how many it prints."""
    rows = set((TOP / place).read_text().splitlines())
    printed = [line for line in printed_by(generator).splitlines() if line and not line.startswith("#")]
    return [line for line in printed if line not in rows], len(printed)


def is_there(item, place):
    """Whether what is printed stands in the file."""
    text = (TOP / place).read_text()
    if place.endswith("/stdin"):
        return is_in_rows(item, text)
    return without_layout(item).rstrip(",") in without_layout(text)


def check(found, complaint):
    """1 of what passed or of what failed, which is told."""
    if not found:
        print(f"check_golden: {complaint}", file=sys.stderr)
    return [found, not found]


def results():
    """What passed and what failed, as pairs of numbers."""
    for place in (ROWS, *(place for _, place in GOLDEN_ROWS)):
        wanted = place.replace("stdin", "stdout")
        yield check((TOP / place).read_text() == (TOP / wanted).read_text(), f"{wanted} is not {place}")
    for words, place in GOLDEN:
        for item in items(printed_by(*words)):
            yield check(is_there(item, place), f"{place} lacks what {' '.join(words)} prints: {item.strip()[:70]}")
    for generator, place in GOLDEN_ROWS:
        lacking, printed = lacking_rows(generator, place)
        for row in lacking:
            print(f"check_golden: {place} lacks what {generator} prints: {row[:70]}", file=sys.stderr)
        yield [printed - len(lacking), len(lacking)]


def main():
    passed, failed = map(sum, zip(*results()))
    print(f"{passed} passed, {failed} failed")
    return 1 if failed else 0


if __name__ == "__main__":
    sys.exit(main())
