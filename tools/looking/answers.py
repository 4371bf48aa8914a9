# What a program answered to each record of a patch file, matched with the record and with what was held.
import re
import subprocess
from dataclasses import dataclass
from itertools import islice
from typing import Optional, Tuple

from looking.code import Setting, patch_of
from looking.records import Record, split


class ProgramError(Exception):
    """A program that failed, or printed what cannot be an answer to the file."""


@dataclass(frozen=True)
class Candidate:
    """A listed message, its patch, and for each place whether the patch agrees with the word."""

    message: Tuple[int, ...]
    patch: Tuple[int, ...]
    agrees: Tuple[bool, ...]

    @property
    def count(self):
        return sum(self.agrees)

    @property
    def differs(self):
        return [place for place, same in enumerate(self.agrees) if not same]


@dataclass(frozen=True)
class Answer:
    """A record with its answer; setting and points are those in force for it."""

    number: int
    record: Record
    refusal: int
    lines: Tuple[str, ...]
    setting: Optional[Setting]
    points: Optional[Tuple[int, ...]]
    candidates: Tuple[Candidate, ...] = ()

    @property
    def listed(self):
        """Whether this is an accepted word, which has a list."""
        return self.record.kind == 3 and self.refusal == 0


def run(command, data):
    """What a program prints for a patch file."""
    try:
        done = subprocess.run(command, input=data, stdout=subprocess.PIPE, stderr=subprocess.PIPE)
    except OSError as error:
        raise ProgramError(f"{command[0]}: {error.strerror}")
    if done.returncode:
        said = done.stderr.decode("utf-8", "replace").strip()
        raise ProgramError(f"{command[0]} ended with {done.returncode}" + (f": {said}" if said else ""))
    return done.stdout.decode("utf-8", "replace")


RECORD_LINE = re.compile(r"([0-9]{1,20}) ([0-9]{1,5}) ([0-9]{1,2})(?: ([0-9]{1,2}))?")
CANDIDATE_LINE = re.compile(r"\+((?: [0-9]{1,3})+)")


def told(number, record, line):
    """The refusal number and the list length (0 without a list) of a record's own line, once it fits the record."""
    found = RECORD_LINE.fullmatch(line)
    if found:
        first, kind, refusal, length = found.groups()
        listed = record.kind == 3 and refusal == "0"
        named = first == str(number) and kind == str(record.kind)
        if named and (refusal == "10") == bool(record.flaw) and (length is not None) == listed:
            return int(refusal), int(length or 0)
    raise ProgramError(f"the line {line!r} does not fit record {number} of kind {record.kind}")


def message_of(line, k):
    """The symbols of a candidate's line."""
    found = CANDIDATE_LINE.fullmatch(line)
    symbols = found.group(1).split() if found else []
    if len(symbols) != k:
        raise ProgramError(f"the line {line!r} is not a candidate of k = {k} symbols")
    return symbols


def whole(lines):
    """Lines without their line ends; the last one must have its own."""
    for line in lines:
        if not line.endswith("\n"):
            raise ProgramError(f"the last line, {line!r}, is cut")
        yield line[:-1]


def lines_of(number, record, k, lines):
    """The refusal number and all lines of a record, its own and its candidates', taken from the front of an iterator."""
    own = next(lines, None)
    if own is None:
        raise ProgramError(f"there is no line for record {number}")
    refusal, length = told(number, record, own)
    listed = list(islice(lines, length))
    if len(listed) < length:
        raise ProgramError(f"the list of record {number} has {len(listed)} of {length} candidates")
    for line in listed:
        message_of(line, k)
    return refusal, [own] + listed


def must_end(lines):
    """No line is left when every record has its own."""
    line = next(lines, None)
    if line is not None:
        raise ProgramError(f"the line {line!r} stands behind those of the last record")


def candidate(line, setting, points, word):
    """A candidate's line, with its agreement worked out here."""
    message = tuple(map(int, message_of(line, setting.k)))
    patch = tuple(patch_of(setting.p, points, message))
    return Candidate(message, patch, tuple(x == y for x, y in zip(patch, word)))


class Held:
    """The setting and the points that the program holds, by its own answers."""

    def __init__(self):
        self.setting = None
        self.points = None

    def lines(self, number, record, lines):
        """The refusal number and the lines of the next record, after which this holds what the program holds."""
        refusal, own = lines_of(number, record, self.setting.k if self.setting else 0, lines)
        if record.kind in (1, 2):
            self.points = None
        if record.kind == 1:
            self.setting = None if refusal else Setting(*record.numbers)
        if record.kind == 2 and refusal == 0:
            self.points = record.numbers
        return refusal, own

    def candidates(self, number, word, lines):
        """The candidates of an accepted word, from their lines."""
        if not self.fits(word):
            raise ProgramError(f"the program accepted record {number}, a word that does not fit what it holds")
        return tuple(candidate(line, self.setting, self.points, word) for line in lines)

    def answer(self, number, record, lines):
        """The next record's answer."""
        refusal, own = self.lines(number, record, lines)
        listed = record.kind == 3 and refusal == 0
        found = self.candidates(number, record.numbers, own[1:]) if listed else ()
        setting = Setting(*record.numbers) if record.kind == 1 else self.setting
        return Answer(number, record, refusal, tuple(own), setting, self.points, found)

    def fits(self, word):
        """Whether a word's agreement with a message can be worked out at all."""
        held = self.setting is not None and self.points is not None
        return held and self.setting.p > 0 and len(word) == len(self.points) == self.setting.n


def ask(command, data):
    """Every record of a patch file with the program's answer to it."""
    lines = whole(run(command, data).splitlines(keepends=True))
    held = Held()
    answers = [held.answer(i, record, lines) for i, record in enumerate(split(data), 1)]
    must_end(lines)
    return answers
