"""The two programs: how they are built and run, and how long they take."""

import resource
import shutil
import subprocess
import sys
import tempfile
from math import ceil
from pathlib import Path

TOP = Path(__file__).resolve().parent.parent
OURS = [str(TOP / "tools/run"), "patch"]
SECOND = str(TOP / "second/target/release/second")
BY_CURVE = [SECOND, "patch", "--way", "curve"]
BY_OWN_WAY = [SECOND, "patch"]


class Failure(Exception):
    """The outputs differ, or a program or a setting does not do what it must."""


def build_ours():
    """tools/run proves and builds the patch program where it is not built."""
    if shutil.which("rt") is None:
        raise Failure("there is no rt here, so the patch program cannot be built or run")
    output(OURS, b"")


def build_second():
    """Whether there is a second program to measure."""
    if shutil.which("cargo") is None:
        return False
    command = ["cargo", "build", "--offline", "--release", "--quiet"]
    done = subprocess.run(command, cwd=TOP / "second", stdout=sys.stderr)
    if done.returncode != 0:
        raise Failure("the second program does not build")
    return True


def output(command, file):
    """What the program prints for the file."""
    done = subprocess.run(command, input=file, stdout=subprocess.PIPE)
    if done.returncode != 0:
        raise Failure(f"{' '.join(command)} ended with {done.returncode}")
    return done.stdout


def timed(command, file):
    """What it prints, and the seconds of processor time, user and system, that it and all that it starts take."""
    before = resource.getrusage(resource.RUSAGE_CHILDREN)
    printed = output(command, file)
    after = resource.getrusage(resource.RUSAGE_CHILDREN)
    return printed, after.ru_utime - before.ru_utime + after.ru_stime - before.ru_stime


def best(command, file, runs):
    """Another load on the machine only ever makes a run longer, so the shortest of a few says most."""
    return min(timed(command, file)[1] for _ in range(runs))


def seconds_a_word(command, reel, once, plan):
    """Seconds for one word less the start-up; None where they are too few to tell. A program that is through the words in much less than the target goes over them again."""
    start = best(command, reel.repeated(0), plan.runs)
    times = min(max(round(plan.target / max(once - start, 0.001)), 1), 50)
    spent = best(command, reel.repeated(times), plan.runs) - start
    return spent / (reel.count * times) if spent > 0.001 else None


def measured(commands, reel, plan, what):
    """Seconds for a word by each program, on the same words; their outputs must be the same."""
    first = [timed(command, reel.repeated(1)) for command in commands]
    must_be_same(commands, [printed for printed, _ in first], reel.repeated(1), what)
    return [seconds_a_word(command, reel, once, plan) for command, (_, once) in zip(commands, first)]


def compared(commands, file, what):
    """What all the programs print."""
    printed = [output(command, file) for command in commands]
    must_be_same(commands, printed, file, what)
    return printed[0]


def must_be_same(commands, printed, file, what):
    """A difference keeps the file and is a failure."""
    for command, other in zip(commands[1:], printed[1:]):
        if other != printed[0]:
            where = difference(printed[0], other)
            raise Failure(f"{what}: {where}; second program: {' '.join(command)}; the file is kept at {kept(file)}")


def difference(ours, other):
    """The first line at which two outputs part, its line end counted."""
    a, b = ours.splitlines(keepends=True), other.splitlines(keepends=True)
    equal = 0
    while a[equal : equal + 1] == b[equal : equal + 1]:
        equal += 1
    return f"outputs differ at line {equal + 1}: ours {a[equal : equal + 1]}, second {b[equal : equal + 1]}"


def kept(file):
    with tempfile.NamedTemporaryFile(prefix="bench-", suffix=".patch", delete=False) as copy:
        copy.write(file)
    return copy.name
