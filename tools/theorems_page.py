#!/usr/bin/env python3
"""Prints `docs/THEOREMS.md`, an index: each public law with its crate, the first sentence of its comment, and its statements.

    tools/theorems_page.py            prints the page
    tools/theorems_page.py --check    fails where docs/THEOREMS.md is another, and says from which line on

A law is a function that does nothing and whose contract is a statement about definitions; its name ends in `_law` or `_laws`.
A statement is a definition of `specs/` or, where the clause has none, the label of the clause.
"""

import re
import sys

import crates_page

TOP = crates_page.TOP
PAGE = TOP / "docs" / "THEOREMS.md"
LAW = re.compile(r"^((?:///.*\n)+)(?:#\[.*\]\n)*pub fn (\w+_laws?)\b[^{]*?\n((?: +(?:requires|ensures) .*\n)+)\{", re.M)
CLAUSE = re.compile(r"^ +ensures (?:(\w+) )?\{ (.*) \}$", re.M)
HEAD = """# The laws

Printed by `tools/theorems_page.py`; the gate compares it.
A law is a function that does nothing and whose contract is a statement about definitions, so that the gate proves it.
The contract of `run` and the five laws that the promises rest on are in `docs/THEOREM.md`, in words.
A statement `X` is a definition below `specs/` of the crate, and one in lower case is the label of a clause.
"""


def first_sentence(comment):
    """The first sentence of a law's comment, without what all of them say."""
    text = " ".join(line[3:].strip() for line in comment.splitlines())
    text = re.sub(r"^The laws? of [^:.]*: ", "", text.replace(", for a caller's proof", ""))
    sentence = re.match(r".*?[.](?= |$)", text)[0].replace("|", "\\|")
    return sentence[0].upper() + sentence[1:]


def statements(clauses):
    """What a law says: the definition that each clause is, or the clause's label."""
    for label, clause in CLAUSE.findall(clauses):
        named = re.match(r"(?:\([^()]*\) → )*([A-Z]\w*)\b(?! →)", clause)
        yield named[1] if named else label or clause


def laws(name):
    """The laws of a crate that can be called from others, by files and in their order there."""
    source = TOP / "crates" / name / "src"
    # A program hands nothing on, so all of its laws are there to be read.
    root = source / "lib.rt"
    handed_on = root.read_text() if root.is_file() else None
    for path in sorted(source.rglob("*.rt")):
        for comment, law, clauses in LAW.findall(path.read_text()):
            if path == root or handed_on is None or re.search(rf"\b{law}\b", handed_on):
                yield law, list(statements(clauses)), first_sentence(comment)


def page():
    text, count = [HEAD], 0
    for title, crates in crates_page.layers():
        rows = [(name, *it) for name in crates for it in laws(name)]
        if not rows:
            continue
        text.append(f"\n## {title.partition(':')[0]}\n\n| Law | Says | Statements |\n|---|---|---|\n")
        text += [f"| `{name}::{law}` | {says} | {', '.join(f'`{it}`' for it in stated)} |\n" for name, law, stated, says in rows]
        count += len(rows)
    return "".join([*text, f"\n{count} laws.\n"])


if __name__ == "__main__":
    sys.exit(crates_page.answer(sys.argv[1:], __doc__, PAGE, page(), "theorems_page"))
