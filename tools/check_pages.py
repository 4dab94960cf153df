#!/usr/bin/env python3
"""Looks at the pages for engineers: README.md, CONTRIBUTING.md, docs/*.md and crates/*/README.md, and at the must-fail edits.

    tools/check_pages.py [PAGE..]      all pages and edits, or these pages alone

It fails on each of these, and says where it stands:
  - a link to a file or to a title that isn't there; links to other sites aren't looked at
  - a path between backticks that isn't there: one that begins with a folder of the repository, or on the page of a crate with one of that crate.
    NAME in a path and a `*` stand for anything
  - a line of more than 120 columns, but in a table or a block of code
  - a figure of the README that isn't what the repository has: definitions and lines of the theorem, crates, must-fail edits; and a number under "Speed"
    that docs/PERFORMANCE.md hasn't
  - promises of the README that aren't those at the top of docs/THEOREM.md, word by word, or of which not each has its title in docs/PROMISES.md
    and its chapter in docs/THEOREM.md
  - a must-fail edit, also one in must-fail/more, that can't be applied: each text behind 'old:' has to stand exactly once in its file, with the changes of the
    pairs before it. Beside 'file:', 'old:' and 'new:' it has no line but, in must-fail/more, one with 'fn:'
The last line is 'N passed, M failed', of pages and edits; it ends with 1 where one failed.
"""

import pathlib
import re
import sys

TOP = pathlib.Path(__file__).resolve().parent.parent
sys.path.insert(0, str(TOP / "tools"))

import rows_page
import theorem_size

COLUMNS = 120
FOLDERS = ("docs", "tools", "crates", "bench", ".ci")
FOLDERS_OF_CRATE = ("src", "specs", "proofs", "must-fail")
# Files that a build makes, which are named before they are there.
BUILT = re.compile(r"crates/\w+/out(/|$)")


def pages():
    found = [TOP / "README.md", TOP / "CONTRIBUTING.md", *sorted((TOP / "docs").glob("*.md")), *sorted((TOP / "crates").glob("*/README.md"))]
    return [str(it.relative_to(TOP)) for it in found]


def lines_of(page):
    """The lines of a page, each with its number and whether it is of a block of code."""
    fenced, code, before = False, False, ""
    for number, line in enumerate((TOP / page).read_text().splitlines(), 1):
        if line.startswith("```"):
            fenced = not fenced
            code = True
        elif not fenced:
            code = line.startswith("    ") and (code or not before.strip())
        yield number, line, fenced or code
        before = line


def titles_of(path):
    """The anchors of the titles of a page."""
    for line in path.read_text().splitlines():
        if re.match(r"#+ ", line):
            title = line.lstrip("#").strip().lower()
            yield re.sub(r"[^\w\- ]", "", title).replace(" ", "-")


def is_there(base, path):
    """Whether there is such a file or folder; NAME and a star stand for anything."""
    return bool(BUILT.match(path)) or any(True for _ in base.glob(path.replace("NAME", "*").rstrip("/")))


def wrong_links(page, line):
    for target in re.findall(r"\]\(([^)\s]+)\)", line):
        if re.match(r"[a-z]+:", target):
            continue
        path, _, anchor = target.partition("#")
        there = (TOP / page).parent / path if path else TOP / page
        if not there.exists():
            yield f"a dead link: {target}"
        elif anchor and anchor not in titles_of(there):
            yield f"a link to no title: {target}"


def wrong_paths(page, line):
    crate = (TOP / page).parent if page.startswith("crates/") else None
    for quoted in re.findall(r"`([^`]+)`", line):
        for word in quoted.split():
            if not re.fullmatch(r"[\w.*-]+(/[\w.*-]+)+/?", word):
                continue
            first = word.split("/")[0]
            if first in FOLDERS and not is_there(TOP, word) or crate and first in FOLDERS_OF_CRATE and not is_there(crate, word):
                yield f"a path that isn't there: {word}"


def wrong_lines(page):
    """What is wrong with the lines of a page, each with its number."""
    for number, line, is_code in lines_of(page):
        if is_code:
            continue
        if len(line) > COLUMNS and not line.lstrip().startswith("|"):
            yield number, f"{len(line)} columns"
        for it in (*wrong_links(page, line), *wrong_paths(page, line)):
            yield number, it


def edits():
    return sorted(str(it.relative_to(TOP)) for form in ("*.edit", "more/*.edit.md") for it in (TOP / "crates").glob(f"*/must-fail/{form}"))


def wrong_edit(edit):
    """What is wrong with a must-fail edit, each with the number of its line."""
    crate = TOP.joinpath(*pathlib.Path(edit).parts[:2])
    path, old, pairs, texts = "", "", 0, {}
    for number, line in enumerate((TOP / edit).read_text().split("\n"), 1):
        kind, _, text = line.partition(":")
        text = text.removeprefix(" ")
        if kind == "file":
            path = text.strip()
            if not (crate / path).is_file() or path.split("/")[0] not in ("src", "specs", "proofs"):
                yield number, f"there is no file {path} to edit"
                return
            texts.setdefault(path, (crate / path).read_text())
        elif kind == "old":
            old = text
            count = texts[path].count(old) if path and old else 0
            if count != 1:
                yield number, f"its 'old:' text stands {count} times in {path or 'no file'}"
                return
        elif kind == "new":
            if not old or old == text:
                yield number, "its 'new:' text has none before it, or the same"
                return
            texts[path] = texts[path].replace(old, text)
            old, pairs = "", pairs + 1
        elif line and not (kind == "fn" and "/more/" in edit):
            yield number, f"a line that nobody reads: {line}"
    if old or not pairs:
        yield 1, "it has no pair of 'old:' and 'new:', or half of one"


def number_of(text):
    return int(text.replace(",", ""))


def figures():
    """The figures that the README has to say: each a form with its numbers, and what these are."""
    counted = theorem_size.count()
    found, core = counted["found"], counted["core"]
    tried = [it.read_text() for it in (TOP / "crates").glob("*/must-fail/*.edit")]
    of_definitions = sum("\nfile: specs/" in f"\n{it}" for it in tried)
    by_hand = sum(1 for _ in (TOP / "crates").glob("*/must-fail/more/*.edit.md"))
    rows = sum(sum(rows_page.rows_of(it).values()) for it in rows_page.programs())
    tests = sum(it.read_text().count("#[test]") for it in (TOP / "crates").glob("*/src/**/*.rt"))
    by_steps = sum(1 for _ in (TOP / "crates").glob("*/proofs/**/Proof.antt"))
    crates = sum(1 for line in (TOP / "crates.txt").read_text().splitlines() if line and not line.startswith("#"))
    return [
        (r"([\d,]+) definitions in ([\d,]+) lines", (len(found), theorem_size.lines_of(found))),
        (r"Of these ([\d,]+) in ([\d,]+) lines are the core", (len(core), theorem_size.lines_of(core))),
        (r"all ([\d,]+) crates", (crates,)),
        (r"([\d,]+) of these proofs is written step by step by hand", (by_steps,)),
        (r"([\d,]+) wrong edits of code and ([\d,]+) of definitions", (len(tried) - of_definitions, of_definitions)),
        (r"([\d,]+) more are tried by hand", (by_hand,)),
        (r"([\d,]+) rows and ([\d,]+) tests", (rows, tests)),
    ]


def wrong_figures():
    """What is wrong with the numbers of the README, each with the number of its line."""
    text = (TOP / "README.md").read_text()
    for form, wanted in figures():
        found = list(re.finditer(form, text))
        if len(found) != 1:
            yield 0, f"it says '{form}' {len(found)} times, and once is wanted"
        for it in found:
            said = tuple(number_of(number) for number in it.groups())
            if said != wanted:
                yield text[: it.start()].count("\n") + 1, f"'{it.group()}', and it is {' and '.join(f'{number:,}' for number in wanted)}"
    measured = set(re.findall(r"\d[\d,.]*\d", (TOP / "docs/PERFORMANCE.md").read_text()))
    before, _, behind = text.partition("\n## Speed\n")
    for number, line in enumerate(behind.partition("\n## ")[0].splitlines(), before.count("\n") + 3):
        for it in set(re.findall(r"\d[\d,.]*\d", line)) - measured:
            yield number, f"{it} isn't in docs/PERFORMANCE.md"


def promises(page, begin, end):
    """The numbered sentences of a page between two texts, each with its number."""
    text = (TOP / page).read_text().partition(begin)[2].partition(end)[0]
    return re.findall(r"^(?:> )?- \*\*(P\d+)\*\* (.+)$", text, re.M)


def wrong_promises():
    """What is wrong with the promises of the README, as the pages of the theorem and of the promises have them."""
    said = promises("README.md", "## What you may rely on", "\n## ")
    if not said or said != promises("docs/THEOREM.md", "# The theorem", "**Proved**"):
        yield 0, "its promises aren't those at the top of docs/THEOREM.md"
    for page, form in (("docs/PROMISES.md", r"^## (P\d.*?),"), ("docs/THEOREM.md", r"^# .*\((P\d.*?)\)$")):
        titles = re.findall(form, (TOP / page).read_text(), re.M)
        if [number for title in titles for number in re.findall(r"P\d+", title)] != [number for number, _ in said]:
            yield 0, f"not each of its promises has its title in {page}, in their order"


def main():
    failed = 0
    wanted = sys.argv[1:] or pages() + edits()
    for page in wanted:
        wrong = list(wrong_edit(page)) if "/must-fail/" in page else [*wrong_lines(page), *((*wrong_figures(), *wrong_promises()) if page == "README.md" else ())]
        failed += bool(wrong)
        for number, text in wrong:
            print(f"check_pages: {page}:{number}: {text}", file=sys.stderr)
    print(f"{len(wanted) - failed} passed, {failed} failed")
    return 1 if failed else 0


if __name__ == "__main__":
    sys.exit(main())
