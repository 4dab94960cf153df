#!/usr/bin/env python3
"""Tries by hand the edits that the gate doesn't: crates/NAME/must-fail/more/*.edit.md.

    tools/try_edits.py NAME..      those of the crates whose code or contracts changed
    tools/try_edits.py             those of all crates

An edit has a line 'fn: PATH' with the function that has to be refused. That function alone is checked, over the libraries that
the last `rt check` of a crate above built, so an edit costs some seconds. It counts only where the function is proved as it stands.
An edit of a constant or of a definition has no such line, and the whole crate is checked with it, as the gate does it.
One that is refused only because a proof file names what it took away has failed, and so has one that meets a limit of the prover.
rt reads nothing of files that end in .md, and this is no part of the gate. The last line is 'N refused, M failed'. It ends with 1
where one failed or none was tried, and with 2 where there is no such crate.
"""

import importlib.machinery
import importlib.util
import os
import pathlib
import re
import shutil
import subprocess
import sys
import tempfile


def load():
    """The command rt as a module: it knows what a crate stands on, and how an edit is read."""
    loader = importlib.machinery.SourceFileLoader("rt_command", shutil.which("rt"))
    spec = importlib.util.spec_from_loader("rt_command", loader)
    made = importlib.util.module_from_spec(spec)
    loader.exec_module(made)
    return made


TOP = pathlib.Path(__file__).resolve().parent.parent
rt = load()
# What rt says of a proof file that names what an edit took away, and of other places.
PLACE = re.compile(r"(note: )?\S+:\d+:\d+:.*")
NAMES = re.compile(r"(note: )?(\./)?proofs/.*(has no field|is not in scope|has no `|was not admitted)")
ONLY_NAMES = "refused only because a proof file names what it took away"


def proves(crate, texts, function):
    """Whether a copy of the crate with these texts proves the function, and what it says where; none where no prover was reached."""
    with tempfile.TemporaryDirectory(prefix="try-edit-") as room:
        for part in rt.rtlib.PARTS:
            if os.path.isdir(f"{crate.folder}/{part}"):
                shutil.copytree(f"{crate.folder}/{part}", f"{room}/{part}")
        for path, text in texts.items():
            pathlib.Path(room, path).write_text(text, encoding="utf-8")
        words = crate.words(["--jobs", "1", "--only", function], keeps=False)
        how = {"stdout": subprocess.PIPE, "stderr": subprocess.STDOUT, "text": True, "errors": "replace"}
        ran = subprocess.run([rt.rtlib.RATTLE, "check", *words], cwd=room, **how)
        lines = ran.stdout.rstrip("\n").split("\n")
        told = [it for it in lines if PLACE.match(it) and (": error" in it or it.startswith("note: "))]
        return (ran.returncode == 0 if lines[-1].startswith("only=") else None), told


def told_of(crate, edit):
    """What is wrong with an edit, or that it is refused as it must be."""
    text = edit.read_text(encoding="utf-8")
    texts, why = rt.edited(text, crate.folder)
    if why:
        return why
    function = next((line[4:].strip() for line in text.split("\n") if line.startswith("fn: ")), "")
    if not function:
        kind, told = rt.must_fail(crate, str(edit), ["--jobs", "1"])
        return "" if kind == rt.REFUSED and "(only because" not in told else told
    if proves(crate, {}, function)[0] is not True:
        return f"{function} isn't proved as it stands"
    is_proved, told = proves(crate, texts, function)
    if is_proved is None:
        return "it did not reach the prover"
    if is_proved:
        return "NOT REFUSED"
    return ONLY_NAMES if told and all(NAMES.match(it) for it in told) else ""


def main(names):
    refused, failed = 0, 0
    crates = rt.rtlib.crates_below(str(TOP))
    unknown = sorted(set(names) - {it.name for it in crates})
    if unknown:
        print(f"try_edits: no such crate: {' '.join(unknown)}", file=sys.stderr)
        return 2
    for crate in crates:
        if names and crate.name not in names:
            continue
        for edit in sorted(pathlib.Path(crate.folder, "must-fail", "more").glob("*.edit.md")):
            told = told_of(crate, edit)
            refused, failed = refused + (not told), failed + bool(told)
            print(f"{crate.name}/{edit.name}: {told or 'refused'}", flush=True)
    print(f"{refused} refused, {failed} failed")
    if not refused + failed:
        print("try_edits: there are no edits of these crates in must-fail/more", file=sys.stderr)
    return 1 if failed or not refused else 0


if __name__ == "__main__":
    sys.exit(main(sys.argv[1:]))
