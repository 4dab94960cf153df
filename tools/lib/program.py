"""What the checks and measurements in Python share: which program they run, and where their folders are."""

import os
import pathlib
import subprocess
import tempfile

TOP = pathlib.Path(__file__).resolve().parent.parent.parent


def program_of(top):
    """The program that ./ostore runs in a folder."""
    return subprocess.run([top / "ostore", "--program"], stdout=subprocess.PIPE, text=True, check=True).stdout.strip()


def program():
    """The program that OSTORE names, or else the one that ./ostore runs."""
    if "OSTORE" not in os.environ:
        os.environ["OSTORE"] = program_of(TOP)
    return os.environ["OSTORE"]


def prefer_memory():
    """Without TMPDIR folders are in memory, where the system has a place for that, since a disk may take seconds for an opening."""
    if "TMPDIR" not in os.environ and os.access("/dev/shm", os.W_OK):
        tempfile.tempdir = os.environ["TMPDIR"] = "/dev/shm"
