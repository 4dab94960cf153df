"""The calls of drives that a process makes over folders, as strace tells them (Debian: apt-get install strace)."""

import collections
import pathlib
import re
import subprocess
import sys
import tempfile

from program import program


def traced(words, requests, replies):
    """The calls of the system that a process makes, as strace tells them."""
    with tempfile.NamedTemporaryFile() as trace, tempfile.TemporaryFile() as given:
        given.writelines(requests)
        given.seek(0)
        calls = "trace=open,openat,fsync,fdatasync,rename,renameat,renameat2,stat,statx,newfstatat,read,pread64,unlink,unlinkat"
        command = ["strace", "-f", "-y", "-e", calls, "-o", trace.name, program(), *words, "pipe"]
        told = subprocess.run(command, stdin=given, stdout=subprocess.PIPE, check=True).stdout
        if told.count(b"HTTP/1.1 200 OK") != replies:
            sys.exit("a request was refused under strace")
        return pathlib.Path(trace.name).read_text(errors="replace").splitlines()


def kinds_of(lines, root):
    """How many calls of drives, and syncs of folders, calls of the system below a root are."""
    kinds = collections.Counter()
    for line in lines:
        call = re.match(r"\d+\s+(\w+)\(", line)
        path = re.search(re.escape(root) + r"/\d+/(?:\d+|data)(?:/([^\s\">]*))?", line)
        if not call or not path:
            continue
        name, below = call[1], path[1] or ""
        is_loose, is_file = below.startswith("loose/"), below not in ("", "loose") and not below.endswith("_")
        if name in ("open", "openat"):
            if "O_APPEND" in line:
                kinds["append"] += 1
            elif is_file and not is_loose:
                kinds["read"] += 1
        elif name in ("fsync", "fdatasync"):
            # A loose file is synced by a call of the drive, and a folder within a rename.
            kinds["sync" if is_loose and is_file else "folder"] += 1
        elif name.startswith("rename"):
            kinds["rename"] += 1
        elif name in ("stat", "statx", "newfstatat"):
            # A rename looks whether its loose file is there; the rest are sizes.
            if is_file and not is_loose and "AT_EMPTY_PATH" not in line:
                kinds["size"] += 1
        elif name.startswith("unlink"):
            kinds["discard" if is_loose else "remove"] += 1
    return kinds
