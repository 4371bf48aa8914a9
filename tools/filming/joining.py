# The outputs of the parts, each held against its part, as the one output of the film.
import os
from collections import deque

from filming.parts import FilmError, load, read_table
from looking.answers import Held, ProgramError, must_end, whole
from looking.streams import read_lines, write_all

CHUNK = 1 << 16  # characters that are written at once
TRIED = 20  # lists of a part that are held against their words: enough to notice the output of another part


def must_agree(held, place, word, candidates):
    """Candidates have the agreement that their word asks for."""
    for found in held.candidates(place, word, candidates):
        if found.count < held.setting.needed:
            raise ProgramError(f"a candidate of record {place} does not fit its word; is this another part's output?")


def numbered(part, lines):
    """The lines of the part's own records, each record's in one text and numbered through. A ProgramError where a line is missing, cut or cannot be this part's."""
    lines = whole(lines)
    held, tried = Held(), 0
    number = part.first - len(part.repeated)
    for place, record in enumerate(part.all(), 1):
        _, (own, *candidates) = held.lines(place, record, lines)
        if candidates and tried < TRIED:
            must_agree(held, place, record.numbers, candidates)
            tried += 1
        if number >= part.first:
            yield "\n".join([f"{number}{own[own.index(' ') :]}", *candidates, ""])
        number += 1
    must_end(lines)


def pour(texts):
    """Writes texts to standard output, in chunks."""
    chunk, size = [], 0
    for text in texts:
        chunk.append(text)
        size += len(text)
        if size >= CHUNK:
            write_all("".join(chunk).encode())
            chunk, size = [], 0
    write_all("".join(chunk).encode())


def texts(folder, row):
    """The texts of one part, read and checked as they are taken; a FilmError names the file that is not as it must be."""
    path = os.path.join(folder, row.name + ".out")
    try:
        yield from numbered(load(folder, row), read_lines(path))
    except FileNotFoundError as error:
        raise FilmError(f"{error.filename} is missing")
    except OSError as error:
        raise FilmError(f"{error.filename}: {error.strerror}")
    except ProgramError as error:
        raise FilmError(f"{path}: {error}")


def faults(folder, rows):
    """What is wrong, a line for each part, so that all of these can be run again before the next try."""
    for row in rows:
        try:
            deque(texts(folder, row), maxlen=0)
        except FilmError as error:
            yield str(error)


def join(folder):
    """Writes the film's output once every part is seen to be whole."""
    rows = read_table(folder)
    found = list(faults(folder, rows))
    if found:
        raise FilmError("\n".join(found))
    for row in rows:
        pour(texts(folder, row))
