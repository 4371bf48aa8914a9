# What the tests share: files, what the program prints for them, real programs and a fake one, and a run of tools/look.
import os
import shlex
import shutil
import subprocess
import sys
import tempfile
import time
import unittest
from pathlib import Path

sys.dont_write_bytecode = True
TOP = Path(__file__).resolve().parents[2]
sys.path.insert(0, str(TOP / "tools"))

from looking.records import join  # noqa: E402

SEVEN = [join(1, (7, 7, 2, 1, 3)), join(2, range(7))]  # a setting and its points
PATCHES = sorted(TOP.glob("samples/*.patch")) + sorted(TOP.glob("vectors/*.patch"))

# What the program prints for each sample; a test holds it against the real program.
PRINTED = {
    "clean": "1 1 0\n2 2 0\n3 3 0 1\n+ 3 2\n",
    "two-readings": "1 1 0\n2 2 0\n3 3 0 2\n+ 0 0\n+ 0 1\n",
    "hopeless": "1 1 0\n2 2 0\n3 3 0 0\n",
    "every-refusal": "1 3 12\n2 2 12\n3 1 1\n4 1 2\n5 1 3\n6 1 4\n7 1 8\n8 2 12\n9 1 0\n10 3 12\n11 2 5\n12 2 6\n13 2 7\n"
    "14 2 0\n15 3 5\n16 3 6\n17 9 11\n18 0 11\n19 3 0 2\n+ 0 0\n+ 0 1\n20 0 10\n",
}


def sample(name):
    return TOP / "samples" / f"{name}.patch"


def look(*args, data=b""):
    """tools/look as a person runs it: exit code, output, errors."""
    command = [sys.executable, str(TOP / "tools" / "look"), *map(str, args)]
    done = subprocess.run(command, input=data, stdout=subprocess.PIPE, stderr=subprocess.PIPE)
    return done.returncode, done.stdout, done.stderr.decode()


def patch_program():
    """The patch program by tools/run, or None where it is not built."""
    there = (TOP / "target/bin/patch").exists() and shutil.which("rt")
    return [str(TOP / "tools" / "run"), "patch"] if there else None


def program():
    """A program that answers patch files: the second one, which starts sooner, or the patch program."""
    second = TOP / "second/target/release/second"
    return [str(second), "patch"] if second.exists() else patch_program()


def needs(found, words):
    """Skips the tests of a class, and says so, where there is no such program."""
    if found() is None:
        print(f"tools/tests: skipped, {words}")
    return unittest.skipIf(found() is None, words)


def until(found):
    """What is found, as soon as there is something; a test that waits for ever is no test."""
    for _ in range(600):
        if found():
            return found()
        time.sleep(0.05)
    raise AssertionError("waited for 30 seconds")


class Fake:
    """A program that prints a fixed text whatever it is asked; `command` is what --program takes."""

    def __init__(self, printed):
        handle, self.path = tempfile.mkstemp()
        with os.fdopen(handle, "w") as file:
            file.write(printed)
        self.list = ["cat", self.path]
        self.command = shlex.join(self.list)

    def __enter__(self):
        return self

    def __exit__(self, *_):
        os.unlink(self.path)
