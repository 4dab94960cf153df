#!/usr/bin/env python3
"""Makes the release in release/, and checks it.

    tools/release.py make      builds the program for x86-64 and for x86-64-v3 of this tree, and writes release/
    tools/release.py check     looks whether release/ is what it says, and where its sources are this tree's, whether the program
                               that was built here is the same. The last line is 'N passed, M failed'

`make` refuses a tree with uncommitted changes. It has `rt run` prove and build the sources, or say that nothing has changed since
they were proved, and takes no other program. The second program is proved once more, under `--cpu=x86-64-v3`.

release/ has each program without its symbols, under gzip; RELEASE with version, commit, kit and the SHA-256 of each file and
program; and SOURCES with the SHA-256 of each file of src/ and specs/ that the program is made of, as sha256sum reads it.
"""

import gzip
import hashlib
import pathlib
import shutil
import subprocess
import sys
import tempfile

TOP = pathlib.Path(__file__).resolve().parent.parent
RELEASE = TOP / "release"
BUILT = TOP / "crates" / "ostore" / "out" / "ostore"
KINDS = {"x86-64": [], "x86-64-v3": ["--cpu=x86-64-v3"]}


def sum_of(data):
    return hashlib.sha256(data).hexdigest()


def crates():
    """The crates that the program is made of, by crates.txt."""
    below = {}
    for line in (TOP / "crates.txt").read_text().splitlines():
        name, colon, words = line.partition(":")
        if colon and not line.startswith("#"):
            below[name] = words.split()
    found, left = set(), ["ostore"]
    while left:
        name = left.pop()
        if name in below and name not in found:
            found.add(name)
            left += below[name]
    return sorted(found)


def sources():
    """A line for each source file of the program, as sha256sum prints it."""
    lines = []
    for name in crates():
        folder = TOP / "crates" / name
        files = [it for part in ("src", "specs") for it in (folder / part).rglob("*") if it.is_file()]
        lines += [f"{sum_of(it.read_bytes())}  {it.relative_to(TOP)}\n" for it in sorted(files)]
    return "".join(lines)


def said(*words, **how):
    return subprocess.run(words, cwd=TOP, capture_output=True, text=True, check=True, **how).stdout.strip()


def stripped(program):
    """The bytes of a program without its symbols."""
    with tempfile.NamedTemporaryFile() as room:
        subprocess.run(["strip", "-s", "-o", room.name, program], check=True)
        return pathlib.Path(room.name).read_bytes()


def built(flags):
    """The program that rt proves and builds under these flags, without its symbols."""
    subprocess.run(["rt", "run", *flags, "--", "status"], cwd=BUILT.parent.parent, check=True, stdin=subprocess.DEVNULL, stdout=subprocess.DEVNULL)
    return stripped(BUILT)


def make():
    if said("git", "status", "--porcelain"):
        print("release: the tree has uncommitted changes", file=sys.stderr)
        return 1
    RELEASE.mkdir(exist_ok=True)
    text = sources()
    fields = {
        "version": (TOP / "VERSION").read_text().strip(),
        "commit": said("git", "rev-parse", "HEAD"),
        "kit": said("rt", "version"),
        "sources": sum_of(text.encode()),
    }
    # The program of this tree stays the plain one.
    for kind, flags in reversed(KINDS.items()):
        program = built(flags)
        packed = gzip.compress(program, 9, mtime=0)
        (RELEASE / f"ostore-{kind}.gz").write_bytes(packed)
        fields[f"program-{kind}"] = sum_of(program)
        fields[f"file-{kind}"] = sum_of(packed)
    (RELEASE / "SOURCES").write_text(text)
    (RELEASE / "RELEASE").write_text("".join(f"{name}: {value}\n" for name, value in fields.items()))
    shutil.rmtree(RELEASE / "out", ignore_errors=True)
    return 0


def faults():
    """What is wrong with the release; none of a case that is as it should be."""
    fields = dict(line.split(": ", 1) for line in (RELEASE / "RELEASE").read_text().splitlines())
    version = (TOP / "VERSION").read_text().strip()
    yield None if fields["version"] == version else f"it is version {fields['version']}, and VERSION says {version}"
    listed = (RELEASE / "SOURCES").read_text()
    yield None if sum_of(listed.encode()) == fields["sources"] else "SOURCES has another digest than RELEASE says"
    programs = {}
    for kind in KINDS:
        packed = (RELEASE / f"ostore-{kind}.gz").read_bytes()
        is_whole = sum_of(packed) == fields[f"file-{kind}"]
        yield None if is_whole else f"ostore-{kind}.gz has another digest than RELEASE says"
        programs[kind] = gzip.decompress(packed) if is_whole else b""
        yield None if sum_of(programs[kind]) == fields[f"program-{kind}"] else f"the program in ostore-{kind}.gz has another digest"
    if listed != sources():
        print("release: its program was left out of what is compared with this tree's, since its sources are others", file=sys.stderr)
    elif said(TOP / "ostore", "--program") != str(BUILT):
        print("release: its program was left out of what is compared, since there is none that was built of this tree", file=sys.stderr)
    else:
        yield None if stripped(BUILT) == programs["x86-64"] else "the program of this tree, of the same sources, has other bytes"


def check():
    if not (RELEASE / "RELEASE").is_file():
        print("release: there is none")
        print("0 passed, 1 failed")
        return 1
    found = list(faults())
    failed = [it for it in found if it]
    for it in failed:
        print(f"release: {it}", file=sys.stderr)
    print(f"{len(found) - len(failed)} passed, {len(failed)} failed")
    return 1 if failed else 0


if __name__ == "__main__":
    if sys.argv[1:] not in (["make"], ["check"]):
        print(__doc__, file=sys.stderr)
        sys.exit(2)
    sys.exit(make() if sys.argv[1] == "make" else check())
