#!/usr/bin/env python3
"""Counts what a reader has to read of the specs to know what the contract of the program says, and the laws beside it that the README's promises rest on.

    tools/theorem_size.py           says how many definitions and lines that are, and in which crates
    tools/theorem_size.py --list    prints each of these definitions too, crate by crate

It begins at the names in the contract of `run` (crates/ostore/src/running.rt), in those of the traits that its drives, streams, audits, clock and doors
have, and in those of the laws below (LAWS), and follows each name into the specs of the crates. Names bound in a definition aren't followed. A line is one of a definition or of the comment
above it; `use` lines and empty lines aren't counted. The types of the code that are named are counted apart, and definitions of the kit aren't followed.
Two chapters can be read by themselves, so what is reached by them alone is counted apart: the grammar of HTTP with the texts of replies (HTTP), and why a
section was refused (CAUSES). What is left is the core.
"""

import pathlib
import re
import sys

TOP = pathlib.Path(__file__).resolve().parent.parent
CRATES = TOP / "crates"
RUN = CRATES / "ostore" / "src" / "running.rt"
# The traits that `run` is generic over, and those that they build on.
TRAITS = [
    ("drive_base", "drive.rt", "Drive"),
    ("drive_file", "share.rt", "Share"),
    ("audit_trail", "audit.rt", "Audit"),
    ("io_base", "source.rt", "Source"),
    ("io_base", "sink.rt", "Sink"),
    ("io_base", "clock.rt", "Clock"),
    ("io_base", "door.rt", "Door"),
]
# The laws beside the contract of `run` that the README's promises rest on: that each change is applied once; that no step takes a file of live data away; that
# enough drives which serve refuse nothing; and over which drives all of it holds.
LAWS = [
    ("ostore", "laws.rt", "life_law"),
    ("log_laws", "laws.rt", "live_law"),
    ("log_laws", "laws.rt", "get_law"),
    ("slot_history", "laws.rt", "run_laws"),
    ("store_shared", "laws.rt", "opened_law"),
]
# The chapters: crates whose definitions are one, and the one definition that the other hangs on.
HTTP = ("http_wire", "s3_request", "s3_reply", "s3_docs")
CAUSES = ("op_steps.specs.Causes", "TurnCause")
NAMED = re.compile(r"^ *(?:(?:abbrev|unfoldable|pub|record|data) )*([^\s:({]+)")
OPENS = re.compile(r"^ *(?:abbrev|unfoldable|pub|record|data)\b")
TOKEN = re.compile(r"[^\s(){}\[\],;@]+")
WORD = re.compile(r"[A-Za-z_][\w'-]*")


def uses_of(text):
    """What the `use` lines of a file bring: names, each with its module and its name there, and modules under other names."""
    names, modules = {}, {}
    for path, listed, alias in re.findall(r"^ *(?:ghost )?use Rattle\.([\w.]+?)(?:\.\{([^}]*)\})?(?: as ([\w.]+))?;?$", text, re.M):
        if listed:
            for item in filter(None, (it.strip() for it in listed.split(","))):
                there, _, here = item.partition(" as ")
                names[here or there] = (path, there)
        else:
            modules[alias or path.split(".")[-1]] = path
    return names, modules


class Spec:
    """A file of specs: its definitions, each with its lines and the lines of the modules around it."""

    def __init__(self, path):
        self.module = f"{path.parts[-3]}.specs.{path.stem}"
        text = path.read_text()
        self.names, self.modules = uses_of(text)
        self.definitions = {}
        # The cases of each `data`, with its name
        self.cases = {}
        comment, current, around = [], None, []
        for line in text.splitlines():
            stripped = line.strip()
            depth = len(line) - len(line.lstrip())
            if not stripped:
                comment, current = [], None
                continue
            if stripped.startswith("use ") or re.match(r"(open|infix[lr]?) ", stripped):
                comment, current = [], None
                continue
            if current and depth > current[1] or current and depth == current[1] and not OPENS.match(line) and not stripped.startswith("--") and not stripped.startswith("module "):
                self.definitions[current[0]]["lines"].append(line)
                if in_data and depth == current[1] + 2:
                    self.cases[stripped.split(" :")[0]] = current[0]
                continue
            around = [it for it in around if it[0] < depth]
            if stripped.startswith("--"):
                comment = comment + [line] if not current else [line]
                current = None
            elif stripped.startswith("module "):
                around.append((depth, line))
                comment, current = [], None
            elif around and depth > around[-1][0] + 2:
                around[-1] = (around[-1][0], around[-1][1] + "\n" + line)
            elif OPENS.match(line):
                name = NAMED.match(line).group(1)
                self.definitions[name] = {"lines": [line], "comment": comment, "around": [it[1] for it in around], "depth": depth}
                current, comment = (name, depth), []
                in_data = re.match(r" *(?:pub )?data ", line)
            else:
                sys.exit(f"theorem_size: {path}: a line of no definition: {line}")


def bound_in(name, lines):
    """The names that a definition binds: its parameters, its fields, and what its patterns name. What a lambda names may be had from a definition
    of that name, as in `part >>= λ part. ..`, so it isn't counted among them."""
    text = "\n".join(re.sub(r"--.*", "", line) for line in lines)
    bound = set()
    for group in re.findall(r"[({]([\w' ]+?) :", text):
        bound.update(group.split())
    bound.update(re.findall(r"^ +pub ([\w'-]+) :", text, re.M))
    for left in re.findall(rf"^ *{re.escape(name)}\b(.*?)(?: = |=$)", text, re.M):
        bound.update(it for it in re.findall(r"(?<![\w.])[a-z_][\w'-]*(?![\w.])", left))
    return bound - {name}


def named_in(text):
    """The names in a text, without what stands behind a dot, which is a field or a name of another module."""
    for token in TOKEN.findall(text):
        first, _, rest = token.partition(".")
        yield first, rest


class Specs:
    """All files of specs."""

    def __init__(self):
        self.files = {}
        for path in sorted(CRATES.glob("*/specs/*.antt")):
            if path.stem != "Lib":
                spec = Spec(path)
                self.files[spec.module] = spec

    def reached(self, roots, closed=lambda module, name: False):
        """The definitions, the types of the code and the words of the kit that are reached from pairs of a module and a name, but by what is closed."""
        found, types, kit = {}, set(), set()
        left = list(roots)
        while left:
            module, name = left.pop()
            if ".specs.declared" in module or not (CRATES / module.split(".")[0]).exists():
                self.outside(module, name, types, kit)
                continue
            if module not in self.files:
                module, _, name = module.rpartition(".")
            spec = self.files.get(module)
            name = spec.cases.get(name, name) if spec else name
            if spec is None or name not in spec.definitions:
                sys.exit(f"theorem_size: {module} has no definition {name}")
            if (module, name) in found or closed(module, name):
                continue
            definition = spec.definitions[name]
            found[module, name] = definition
            left += self.references(spec, name, definition)
        return found, types, kit

    @staticmethod
    def outside(module, name, types, kit):
        crate = module.split(".")[0]
        if not (CRATES / crate).exists():
            kit.add((module, name))
            return
        path = module.split(".specs.declared", 1)[1].strip(".").split(".")
        if path[-1] == "TheVariants":
            path = path[:-1]
        types.add((crate, ".".join(path)))

    @staticmethod
    def references(spec, name, definition):
        bound = bound_in(name, definition["lines"])
        text = "\n".join(re.sub(r"--.*", "", line) for line in definition["around"] + definition["lines"])
        for first, rest in named_in(text):
            if first in bound:
                continue
            if first in spec.modules and rest:
                yield spec.modules[first], rest.split(".")[0]
            elif first in spec.names:
                yield spec.names[first]
            elif spec.cases.get(first, first) in spec.definitions and first != name:
                yield spec.module, first
        for sign in re.findall(r"\S+", text):
            if f"◌{sign}◌" in spec.names:
                yield spec.names[f"◌{sign}◌"]
            elif f"◌{sign}◌" in spec.definitions:
                yield spec.module, f"◌{sign}◌"


def contract(text, opening):
    """The `requires` and `ensures` of what begins with these words, up to its body, or to the end of a trait."""
    found = re.search(rf"{re.escape(opening)}\b.*?(?=\n\}}|\n\{{)", text, re.S)
    if not found:
        sys.exit(f"theorem_size: there is no {opening}")
    return found[0] + "\n"


def roots_of(path, opening):
    """The names of specs in a contract of the code."""
    text = path.read_text()
    names, _ = uses_of(text)
    clauses = "\n".join(re.findall(r"(?:ghost \w+: |requires \w* ?|ensures \w* ?)\{.*?\}(?=;|\n)", contract(text, opening), re.S))
    return {names[first] for first, _ in named_in(clauses) if first in names}


def lines_of(found):
    """How many lines definitions have, with their comments and the heads of the modules around them, each counted once."""
    heads = {(module, head) for (module, _), it in found.items() for head in it["around"]}
    own = sum(len(it["lines"]) + len(it["comment"]) for it in found.values())
    return own + sum(head.count("\n") + 1 for _, head in heads)


def count():
    """The definitions below the contract of `run`, those that its traits and then the laws add, all of them by crates, and the types of the code."""
    specs = Specs()
    own = roots_of(RUN, "pub fn run")
    traits, laws = set(), set()
    for crate, file, name in TRAITS:
        traits |= roots_of(CRATES / crate / "src" / file, f"pub trait {name}")
    for crate, file, name in LAWS:
        law = roots_of(CRATES / crate / "src" / file, f"pub fn {name}")
        if not law:
            sys.exit(f"theorem_size: {name} of {crate} says nothing")
        laws |= law
    below, _, _ = specs.reached(own)
    beside, _, _ = specs.reached(own | traits)
    found, types, kit = specs.reached(own | traits | laws)
    kit = {it for it in kit if not it[0].startswith("std.")}
    everything = sum(len(it.definitions) for it in specs.files.values())
    roots = own | traits | laws
    without_http, _, _ = specs.reached(roots, lambda module, name: module.split(".")[0] in HTTP)
    core, _, _ = specs.reached(roots, lambda module, name: module.split(".")[0] in HTTP or (module, name) == CAUSES)
    return {"core": core, "without_http": without_http, "below": below, "beside": beside, "found": found, "types": types, "kit": kit, "everything": everything}


def main():
    counted = count()
    found = counted["found"]
    crates = {}
    for (module, name), it in found.items():
        crates.setdefault(module.split(".")[0], {})[module, name] = it
    print(f"the contract of run: {len(counted['below'])} definitions, {lines_of(counted['below'])} lines")
    print(f"with its traits: {len(counted['beside'])} definitions, {lines_of(counted['beside'])} lines")
    print(f"and with the laws beside it: {len(found)} definitions, {lines_of(found)} lines, of {counted['everything']} definitions in all specs")
    core, without = counted["core"], counted["without_http"]
    print(f"the core of these: {len(core)} definitions, {lines_of(core)} lines")
    print(f"why sections are refused: {len(without) - len(core)} definitions, {lines_of(without) - lines_of(core)} lines")
    print(f"the grammar of HTTP and the texts of replies: {len(found) - len(without)} definitions, {lines_of(found) - lines_of(without)} lines")
    print(f"types of the code that they name: {len(counted['types'])}")
    print(f"words of the kit beside those of its standard library: {', '.join(sorted(name for _, name in counted['kit']))}")
    for crate, its in sorted(crates.items(), key=lambda it: -len(it[1])):
        print(f"  {crate}: {len(its)} definitions, {lines_of(its)} lines")
        if sys.argv[1:] == ["--list"]:
            for module, name in sorted(its):
                print(f"    {module.split('.specs.')[1]}.{name}")
    return 0


if __name__ == "__main__":
    sys.exit(main())
