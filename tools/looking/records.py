# The bytes of a patch file as records, and records as bytes.
import struct
from itertools import chain
from typing import NamedTuple, Optional

KINDS = {1: "setting", 2: "points", 3: "word"}
NAMES = ("p", "n", "k", "s", "tau")
MOST = 64  # numbers in a body: the length is at most 130 bytes, two of them the kind
MOST_BYTES = 132  # of a whole record; no test looks beyond them


class Record(NamedTuple):
    """A record, or (kind 0 and a flaw) the bytes from one that is refused with 10 on."""

    kind: int
    data: bytes
    flaw: Optional[str] = None

    @property
    def numbers(self):
        """The body, of a record without a flaw."""
        return () if self.flaw else struct.unpack_from(f"<{len(self.data) // 2 - 2}H", self.data, 4)


def flaw(rest):
    """Why the record that `rest` starts with is refused with 10, or None."""
    if len(rest) < 2:
        return "the input ends inside a record"
    (length,) = struct.unpack_from("<H", rest)
    if length < 2:
        return f"a length below 2 ({length})"
    if length > 130:
        return f"a length above 130 ({length})"
    if length % 2:
        return f"an odd length ({length})"
    if len(rest) < 2 + length:
        return "the input ends inside a record"
    if struct.unpack_from("<H", rest, 2) == (1,) and length != 12:
        return f"a kind 1 length other than 12 ({length})"
    return None


def stream(blocks):
    """Every record of a patch file that comes in blocks of bytes; the program stops at the first with a flaw, so that is the last one here."""
    data, at = b"", 0
    for block in chain(blocks, [None]):
        data, at = data[at:] + (block or b""), 0
        # Before the end a record is looked at only when all bytes that it may have are there.
        while at < len(data) if block is None else len(data) - at >= MOST_BYTES:
            reason = flaw(data[at : at + MOST_BYTES])
            if reason:
                yield Record(0, data[at:], reason)
                return
            length, kind = struct.unpack_from("<HH", data, at)
            end = at + 2 + length
            yield Record(kind, data[at:end])
            at = end


def split(data):
    """Every record of a patch file; one with a flaw has all bytes to the end."""
    return list(stream([data]))


def join(kind, numbers):
    """The bytes of a record with this kind and body."""
    return struct.pack(f"<HH{len(numbers)}H", 2 + 2 * len(numbers), kind, *numbers)
