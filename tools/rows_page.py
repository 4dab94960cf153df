#!/usr/bin/env python3
"""Prints docs/ROWS.md, an index: the trial programs, with a link to how a row of each is written, and how many rows there are of each crate.

    tools/rows_page.py              prints the page
    tools/rows_page.py --check      compares docs/ROWS.md with it, and the stdout of each program with its stdin
    tools/rows_page.py --tests REV  prints the #[test] functions and asserts that a revision has, crate by crate

How a row is written is said under "A row" in the README.md of a trial program. A row counts for the crate that its first
word names, and else for the program. The last line of --check is 'N passed, M failed'.
"""

import collections
import pathlib
import re
import subprocess
import sys

TOP = pathlib.Path(__file__).resolve().parent.parent
PAGE = TOP / "docs" / "ROWS.md"
HEAD = """# Rows

Printed by `tools/rows_page.py`; the gate compares it.
Rows show what no clause says.
A program calls public functions on the rows of its standard input, and prints each row with the answer that it finds.
The gate runs each program as two compilers build it, and wants `stdout`, which is a copy of `stdin`.
Rattle's own compiler can't build `trial_slots` and `trial_ops`, since they are too large for its tables.
A further row is a line in both files, and costs no proof.

A row is `CRATE CALL WORDS = ANSWER`, such as `poly_code encode 4 2 1 4142 = 4744`.
A line that begins with `#` says what the rows below it show, and where their answers come from.
`let NAME = BYTES` gives bytes a name for the rows below.
Bytes are hex digits, `'text'`, or such a name; `PIECE*N` is a piece N times, and a blank joins two of them.
All programs share this much (`trial_base`).
The page of each program, to which the table links, has its own words under "A row".
"""


def crates():
    """The names of the repository's crates."""
    return [line.partition(":")[0] for line in (TOP / "crates.txt").read_text().splitlines() if line[:1].isalpha()]


def programs():
    return [name for name in crates() if name.startswith("trial_") and (TOP / "crates" / name / "stdin").is_file()]


def rows_of(program):
    """The number of rows of each crate in a program."""
    found, names = collections.Counter(), set(crates())
    for line in (TOP / "crates" / program / "stdin").read_text().splitlines():
        if line and not line.startswith("#") and not line.startswith("let "):
            word = line.split(" ")[0]
            found[word if word in names else program] += 1
    return found


def section(program, title):
    """The lines of a section of a program's README."""
    text = (TOP / "crates" / program / "README.md").read_text()
    found = re.search(rf"^## {title}\n\n?(.*?)(?=^## |\Z)", text, re.M | re.S)
    return found[1].strip() if found else ""


def page():
    lines, total = [HEAD, "| Program | Rows of each crate | All |", "|---|---|---|"], 0
    for program in programs():
        rows = rows_of(program)
        total += sum(rows.values())
        each = ", ".join(f"`{crate}` {number:,}" for crate, number in sorted(rows.items()))
        lines.append(f"| [`{program}`](../crates/{program}/README.md#a-row) | {each} | {sum(rows.values()):,} |")
    return "\n".join([*lines, f"\nAll programs have {total:,} rows."]) + "\n"


def check():
    failed = []
    if not PAGE.is_file() or PAGE.read_text() != page():
        failed.append("docs/ROWS.md isn't what tools/rows_page.py prints")
    for program in programs():
        folder = TOP / "crates" / program
        if (folder / "stdin").read_bytes() != (folder / "stdout").read_bytes():
            failed.append(f"{program}: stdout isn't a copy of stdin")
        if not section(program, "A row"):
            failed.append(f"{program}: its README has no section 'A row'")
    for it in failed:
        print(f"rows_page: {it}", file=sys.stderr)
    print(f"{2 * len(programs()) + 1 - len(failed)} passed, {len(failed)} failed")
    return 1 if failed else 0


def tests(revision):
    """Prints the tests and asserts of each crate in a revision."""
    def count(form):
        ran = subprocess.run(["git", "grep", "-cP", form, revision, "--", "crates/*/src/*"], cwd=TOP, capture_output=True, text=True)
        found = collections.Counter()
        for line in ran.stdout.splitlines():
            path, _, number = line.partition(":")[2].rpartition(":")
            found[path.split("/")[1]] += int(number)
        return found

    functions, asserts = count(r"^\s*#\[test\]"), count(r"\b(assert|assert_eq|assert_ne)!\(")
    for crate in sorted(functions):
        print(f"{crate}: {functions[crate]} tests, {asserts[crate]} asserts")
    print(f"all: {sum(functions.values())} tests, {sum(asserts.values())} asserts")
    return 0


def main(words):
    if words == ["--check"]:
        return check()
    if len(words) == 2 and words[0] == "--tests":
        return tests(words[1])
    if words:
        print(__doc__, file=sys.stderr)
        return 2
    print(page(), end="")
    return 0


if __name__ == "__main__":
    sys.exit(main(sys.argv[1:]))
