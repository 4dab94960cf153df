#!/usr/bin/env python3
"""Prints the lemma files: of each the crate, what its head says, the files of specs that it serves, and how many lemmas it has.

    lemmas.py               all of them, crate by crate
    lemmas.py WORD..        those whose row has each of these words, in any case, such as a crate, a file of specs or what a lemma is about
    lemmas.py --check       fails where a lemma file says in no head what it is about; the last line is 'N passed, M failed'

A lemma file is a file of `crates/NAME/proofs` that isn't the answer to one function. It serves the files of `specs/`
whose definitions its public statements name most; where they are of another crate, its name stands before the dot.
"""
import os
import re
import sys
from collections import Counter

TOP = os.path.join(os.path.dirname(os.path.abspath(__file__)), "..")
IMPORT = re.compile(r"^use Rattle\.(\w+)\.specs\.([\w.]+?)(?:\.\{(.*)\}| as (\w+))$")
PUBLIC = re.compile(r"^\s*(?:abbrev )?pub (?:record )?(\S+)[^:]*:(.*)$")


def statements(lines):
    """The text of each public statement, with the lines that go on from it."""
    inside = False
    for line in lines:
        if PUBLIC.match(line):
            inside = True
        elif not line.strip() or re.match(r"^\s*\S+(?: \S+)* = ", line) or line.lstrip().startswith("--"):
            inside = False
        if inside:
            yield line


def served(crate, text):
    """The files of specs that the public statements name, the most named first."""
    home, count = {}, Counter()
    for line in text.split("\n"):
        found = IMPORT.match(line)
        if not found or found.group(2).startswith("declared") or found.group(1) in ("std", "core"):
            continue
        place = found.group(2) if found.group(1) == crate else f"{found.group(1)}.{found.group(2)}"
        names = [found.group(4)] if found.group(4) else [n.split(" as ")[-1].strip() for n in found.group(3).split(",")]
        for name in names:
            home[name] = place
    for line in statements(text.split("\n")):
        for word in re.findall(r"[\w.'-]+", line):
            place = home.get(word) or home.get(word.split(".")[0])
            if place:
                count[place] += 1
    own = [(place, n) for place, n in count.items() if "." not in place] or list(count.items())
    return [place for place, n in sorted(own, key=lambda pair: (-pair[1], pair[0]))[:3]]


def rows(crate):
    """The rows of a crate: the file, what its head says, what it serves, and its number of lemmas."""
    folder = os.path.join(TOP, "crates", crate, "proofs")
    if not os.path.isdir(folder):
        return
    for name in sorted(os.listdir(folder)):
        if not name.endswith(".antt") or name == "Lib.antt":
            continue
        with open(os.path.join(folder, name), encoding="utf-8") as file:
            text = file.read()
        head = []
        for line in text.split("\n"):
            if not line.startswith("-- "):
                break
            head.append(line[3:])
        count = sum(1 for line in text.split("\n") if PUBLIC.match(line))
        yield name[:-5], " ".join(head), ", ".join(served(crate, text)), count


def check(found):
    """Says which files have no head."""
    failed = [f"{crate}/proofs/{name}.antt" for crate, name, head, _, _ in found if not head]
    for it in failed:
        print(f"lemmas: crates/{it} has no head that says what it is about", file=sys.stderr)
    print(f"{len(found) - len(failed)} passed, {len(failed)} failed")
    return 1 if failed else 0


def main(words):
    found = [(crate, *it) for crate in sorted(os.listdir(os.path.join(TOP, "crates"))) for it in rows(crate)]
    if words == ["--check"]:
        return check(found)
    for crate, name, head, serves, count in found:
        line = f"{crate}/{name}: {head} Serves {serves or 'no definition'}. {count} lemmas."
        if all(it.lower() in line.lower() for it in words):
            print(line)
    return 0


if __name__ == "__main__":
    sys.exit(main(sys.argv[1:]))
