#!/usr/bin/env python3
"""Prints `docs/CRATES.md`, an index: each layer of `crates.txt`, and each crate with a link to its page, what it is, and how many lines it has.

    tools/crates_page.py            prints the page
    tools/crates_page.py --check    fails where docs/CRATES.md is another, and says from which line on, or where the page of a crate lacks a part

What a crate is says the first sentence of the head of `src/lib.rt` (of `src/main.rt` in a program).
A layer of `crates.txt` is a line `# NAME: WHAT` and the lines of its crates. A crate stands below those that name it, also in its layer.
The page of a crate is `crates/NAME/README.md`, with the parts `Proved`, `Only tested` and `Neither`, and maybe `Files`.
"""

import itertools
import pathlib
import re
import sys

TOP = pathlib.Path(__file__).resolve().parent.parent
PAGE = TOP / "docs" / "CRATES.md"
PARTS = ("Proved", "Only tested", "Neither")
# The folders of a crate whose lines are counted, and what their files end with.
COUNTED = (("src", "rt"), ("specs", "antt"), ("proofs", "antt"))
HEAD = """# The crates

Printed by `tools/crates_page.py`; the gate compares it.
A crate stands below those that use it, layer by layer, and its page says what is proved, what is only tested, and what
is neither.
Three columns count the lines of its code, its specs and its proofs, without empty ones.
"""


def layers():
    """The layers, each with its title and its crates, and these with what they name."""
    found = []
    for line in (TOP / "crates.txt").read_text().splitlines():
        name, colon, rest = line.partition(":")
        if line.startswith("# "):
            found.append((line[2:], {}))
        elif colon:
            if not found:
                sys.exit("crates_page: crates.txt has a crate above its first layer")
            found[-1][1][name.split()[0]] = rest.split()
    return found


def stop_unless_lowest_first(found):
    """Ends where a crate stands above one that it names."""
    named = {name: below for _, crates in found for name, below in crates.items()}
    done = set()
    for name, below in named.items():
        above = [it for it in below if it in named and it not in done]
        if above:
            sys.exit(f"crates_page: crates.txt has {name} above {above[0]}, on which it stands")
        done.add(name)


def stop_unless_whole(name):
    """Ends where the page of a crate has another title, or lacks a part."""
    page = (TOP / "crates" / name / "README.md").read_text()
    if not page.startswith(f"# `{name}`\n"):
        sys.exit(f"crates_page: crates/{name}/README.md has another title")
    # How a row of a trial program is written stands on its page, too, and in a larger crate what its files have.
    titles = tuple(it for it in re.findall(r"^## (.+)$", page, re.M) if it not in ("A row", "Files"))
    if titles != PARTS:
        sys.exit(f"crates_page: crates/{name}/README.md has not the parts {', '.join(PARTS)}")


def what_it_is(name):
    """The first sentence of the head of the crate."""
    source = TOP / "crates" / name / "src"
    root = source / "lib.rt" if (source / "lib.rt").exists() else source / "main.rt"
    lines = []
    for line in root.read_text().splitlines():
        if line.strip() in ("//!", "") or not line.startswith("//!"):
            break
        lines.append(line[3:].strip())
    return re.match(r".*?[.](?= [A-Z]|$)", " ".join(lines))[0]


def lines_in(name, folder, ending):
    files = (TOP / "crates" / name / folder).rglob(f"*.{ending}")
    return sum(1 for it in files for line in it.read_text().splitlines() if line.strip())


def row(name, sums):
    counts = [lines_in(name, *it) for it in COUNTED]
    for place, number in enumerate(counts):
        sums[place] += number
    return f"| [`{name}`](../crates/{name}/README.md) | {what_it_is(name)} | {' | '.join(f'{it:,}' for it in counts)} |"


def page():
    found, sums = layers(), [0, 0, 0]
    stop_unless_lowest_first(found)
    text = [HEAD]
    for title, crates in found:
        text.append(f"\n## {title}\n\n| Crate | What it is | Code | Specs | Proofs |\n|---|---|---|---|---|\n")
        text += [row(name, sums) + "\n" for name in crates]
    count = sum(len(crates) for _, crates in found)
    text.append(f"\nIn all {count} crates: {sums[0]:,} lines of code, {sums[1]:,} of specs and {sums[2]:,} of proofs.\n")
    return "".join(text)


def check(path, made, tool):
    """Whether a page is what its tool prints; where not, it says so."""
    found = path.read_text() if path.is_file() else ""
    if found == made:
        return 0
    pairs = itertools.zip_longest(found.split("\n"), made.split("\n"))
    line = next(number for number, (one, other) in enumerate(pairs, 1) if one != other)
    print(f"{tool}: {path.relative_to(TOP)} is another from line {line} on: print it anew (tools/dev pages)", file=sys.stderr)
    return 1


def answer(words, doc, path, made, tool):
    """What a tool that prints a page does: it prints, or checks the page with `--check`."""
    if words == ["--check"]:
        return check(path, made, tool)
    if words:
        print(doc, file=sys.stderr)
        return 2
    sys.stdout.write(made)
    return 0


def main(words):
    if words == ["--check"]:
        for _, crates in layers():
            for name in crates:
                stop_unless_whole(name)
    return answer(words, __doc__, PAGE, page(), "crates_page")


if __name__ == "__main__":
    sys.exit(main(sys.argv[1:]))
