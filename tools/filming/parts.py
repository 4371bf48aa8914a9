# A film cut into parts. Each is a patch file that can be read by itself: it begins with the records before the cut on which its answers depend.
import os
import re
from itertools import chain, islice
from typing import List, NamedTuple
from zlib import crc32

from looking.records import MOST_BYTES, Record, split, stream
from looking.streams import read_file, write_file

TABLE = "parts.txt"


class FilmError(Exception):
    """A folder or a part that is not as it must be."""


class Part(NamedTuple):
    """The records of a film from number `first` on, and the earlier ones that are repeated in front of them."""

    first: int
    repeated: List[Record]
    records: List[Record]

    def all(self):
        return self.repeated + self.records

    def data(self):
        """The part's bytes. Of a broken record the program looks at no more than a whole one may have."""
        return b"".join(record.data[:MOST_BYTES] for record in self.all())


class Row(NamedTuple):
    """What the table says of a part: its name, the number of its first record, how many it has, how many are repeated before them, and a sum over its bytes."""

    name: str
    first: int
    records: int
    repeated: int
    sum: int

    def line(self):
        return f"{self.name} {self.first} {self.records} {self.repeated} {self.sum:08x}\n"


def repeated_after(repeated, record):
    """The last setting record and the last points record since, also refused ones: all that the next records' answers depend on (the lemma `film`, crates/rules/proofs/Film.antt)."""
    if record.kind == 1:
        return [record]
    if record.kind == 2:
        return [repeated[0], record] if repeated else []
    return repeated


def cut(records, limit, weight=lambda record: 1):
    """The parts of a film; each ends with the record that brings its weight to the limit."""
    repeated, part, heavy = [], Part(1, [], []), 0
    for record in records:
        part.records.append(record)
        repeated = repeated_after(repeated, record)
        heavy += weight(record)
        if heavy >= limit:
            yield part
            part, heavy = Part(part.first + len(part.records), repeated, []), 0
    if part.records:
        yield part


def name_of(index):
    return f"{index:06}"


def table_of(rows):
    """The text of the table, whose last line tells whether it is whole."""
    return "".join([*(row.line() for row in rows), f"end {len(rows)} {sum(row.records for row in rows)}\n"])


def split_film(blocks, folder, count):
    """Writes the parts, `count` records to each, and last the table by which they are joined; gives its rows."""
    parts = cut(stream(blocks), count)
    first = list(islice(parts, 1))  # what cannot be read leaves no folder
    os.makedirs(folder, exist_ok=True)
    if os.listdir(folder):
        raise FilmError(f"{folder} is not empty")
    rows = []
    for index, part in enumerate(chain(first, parts), 1):
        data = part.data()
        row = Row(name_of(index), part.first, len(part.records), len(part.repeated), crc32(data))
        write_file(os.path.join(folder, row.name + ".patch"), data, os.O_EXCL)
        rows.append(row)
    table = os.path.join(folder, TABLE)
    write_file(table + ".new", table_of(rows).encode(), os.O_EXCL)
    os.rename(table + ".new", table)
    return rows


def read_table(folder):
    """The rows of the table, which must follow each other without a gap."""
    name = os.path.join(folder, TABLE)
    if not os.path.exists(name):
        raise FilmError(f"{folder} has no {TABLE}, so it was not split, or not to the end")
    text = read_file(name).decode("ascii", "replace")
    rows, first = [], 1
    for records, repeated, sum_ in re.findall(r"^[0-9]+ [0-9]+ ([0-9]+) ([0-2]) ([0-9a-f]{8})$", text, re.M):
        row = Row(name_of(len(rows) + 1), first, int(records), int(repeated), int(sum_, 16))
        rows.append(row)
        first += row.records
    if text != table_of(rows):
        raise FilmError(f"{name} is cut or changed")
    return rows


def load(folder, row):
    """A part as its file has it."""
    path = os.path.join(folder, row.name + ".patch")
    data = read_file(path)
    records = split(data)
    if crc32(data) != row.sum or len(records) != row.repeated + row.records:
        raise FilmError(f"{path} is not as it was written")
    return Part(row.first, records[: row.repeated], records[row.repeated :])
