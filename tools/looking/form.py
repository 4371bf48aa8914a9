# The text form of a patch file: written for any bytes, and read back with line numbers in its errors.
import re

from looking.code import patch_of
from looking.records import KINDS, MOST, NAMES, join, split

KINDS_BY_NAME = {name: kind for kind, name in KINDS.items()}
BYTES_IN_LINE = 16


class TextError(Exception):
    """A line that is not in the text form, and why."""

    def __init__(self, line, reason):
        super().__init__(f"line {line}: {reason}")


# Writing


def width_of(records):
    """The width that sets the marks of points and words below each other."""
    marks = [x for r in records if r.kind in (2, 3) for x in r.numbers]
    return max((len(str(x)) for x in marks), default=1)


def line_of(record, width=1):
    """A record without a flaw as one line."""
    if record.kind == 1:
        pairs = zip(NAMES, record.numbers)
        return "setting " + " ".join(f"{name} {value}" for name, value in pairs)
    if record.kind in KINDS:
        marks = " ".join(f"{x:{width}}" for x in record.numbers)
        return f"{KINDS[record.kind]:7} {marks}".rstrip()
    return " ".join(["record", str(record.kind), *map(str, record.numbers)])


def byte_lines(data):
    """Bytes as lines of the text form."""
    parts = [data[i : i + BYTES_IN_LINE] for i in range(0, len(data), BYTES_IN_LINE)]
    return ["bytes " + part.hex(" ") for part in parts]


def write(data):
    """The text form of any bytes."""
    records = split(data)
    width = width_of(records)
    lines = []
    for record in records:
        if record.flaw:
            lines.append(f"# The program stops here with 10: {record.flaw}.")
            lines.extend(byte_lines(record.data))
        else:
            lines.append(line_of(record, width))
    return "".join(line + "\n" for line in lines)


# Reading


class Reader:
    """Reads lines one after another; holds the setting and the points for `encode`."""

    def __init__(self):
        self.line = 0
        self.setting = None
        self.points = None

    def fail(self, reason):
        raise TextError(self.line, reason)

    def read(self, raw):
        """The bytes that one line stands for."""
        self.line += 1
        try:
            text = raw.decode("utf-8")
        except UnicodeDecodeError:
            text = None
        if text is None or "\0" in text:
            self.fail("this is no text; is it a patch file? `look text` reads those")
        fields = text.split("#", 1)[0].split()
        if not fields:
            return b""
        ways = {
            "setting": self.read_setting,
            "points": self.read_points,
            "word": self.read_word,
            "encode": self.read_encode,
            "record": self.read_record,
            "bytes": self.read_bytes,
        }
        if fields[0] not in ways:
            self.fail(f"a line starts with one of {', '.join(ways)}, not with {fields[0]!r}")
        return ways[fields[0]](fields[1:])

    def number(self, field):
        if not re.fullmatch("[0-9]+", field):
            self.fail(f"{field!r} is not a number")
        digits = field.lstrip("0") or "0"
        if len(digits) > 5 or int(digits) > 65535:
            self.fail(f"{field} is above 65535")
        return int(digits)

    def numbers(self, fields):
        """Numbers and ranges like 0..6."""
        found = []
        for field in fields:
            first, dots, last = field.partition("..")
            low = self.number(first)
            high = self.number(last) if dots else low
            if high < low:
                self.fail(f"the range {field} runs downwards")
            found.extend(range(low, high + 1))
        return found

    def record(self, kind, numbers):
        if len(numbers) > MOST:
            self.fail(f"{len(numbers)} numbers; a record holds {MOST} at most (longer ones: `bytes`)")
        return join(kind, numbers)

    def read_setting(self, fields):
        fields = ["tau" if field == "τ" else field for field in fields]
        if sorted(fields[::2]) != sorted(NAMES) or len(fields) != 10:
            self.fail("a setting is `setting p 7 n 7 k 2 s 1 tau 3`, each name once")
        given = {name: self.number(value) for name, value in zip(fields[::2], fields[1::2])}
        self.setting, self.points = given, None
        return self.record(1, [given[name] for name in NAMES])

    def read_points(self, fields):
        self.points = self.numbers(fields)
        return self.record(2, self.points)

    def read_word(self, fields):
        return self.record(3, self.numbers(["0" if field == "?" else field for field in fields]))

    def read_record(self, fields):
        if not fields:
            self.fail("a record needs its kind: `record 5  1 2 3`")
        kind = self.number(fields[0])
        if kind in KINDS:
            self.fail(f"kind {kind} is written `{KINDS[kind]}`")
        return self.record(kind, self.numbers(fields[1:]))

    def read_bytes(self, fields):
        for field in fields:
            if not re.fullmatch("[0-9A-Fa-f]{2}", field):
                self.fail(f"{field!r} is not a byte of two hexadecimal digits")
        return bytes.fromhex("".join(fields))

    def read_encode(self, fields):
        """A message's patch, with marks lost or changed at places counted from 0."""
        if self.points is None or self.setting is None:
            self.fail("encode needs a setting and points before it")
        message, lost, changed = self.encode_parts(fields)
        p, k = self.setting["p"], self.setting["k"]
        if p < 2 or len(message) != k or any(symbol >= p for symbol in message):
            self.fail(f"encode takes k = {k} symbols below p = {p}")
        word = patch_of(p, self.points, message)
        for place, symbol in [(place, 0) for place in lost] + changed:
            if place >= len(word):
                self.fail(f"place {place} is outside the word; places run from 0 to {len(word) - 1}")
            word[place] = symbol
        return self.record(3, word)

    def encode_parts(self, fields):
        """The message, the lost places, and the changed ones with their symbols."""
        parts = {"message": [], "lost": [], "changed": []}
        part = "message"
        for field in fields:
            if field in ("lost", "changed"):
                part = field
            else:
                parts[part].append(field)
        changed = []
        for field in parts["changed"]:
            place, sign, symbol = field.partition("=")
            if not sign:
                self.fail(f"{field!r} after `changed` is not like 2=5 (place 2 now holds 5)")
            changed.append((self.number(place), self.number(symbol)))
        return self.numbers(parts["message"]), self.numbers(parts["lost"]), changed


def read(text):
    """The bytes of the patch file that a text (as bytes) stands for."""
    reader = Reader()
    return b"".join(reader.read(line) for line in text.split(b"\n"))
