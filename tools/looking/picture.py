# An SVG picture of words with their candidates: which marks agree with which reading.
import xml.etree.ElementTree as ET

from looking.causes import cause
from looking.lines import candidate_words, list_words
from looking.style import DEFS, HEAD, STYLE

BAND = 32  # marks beside each other; a longer word goes on below, with its readings
PAD = 20
CELL_HEIGHT = 36
ROW_GAP = 8
LINE = 15  # height of a line of small text
MESSAGE_WIDTH = 28  # characters of a message in one line
RIGHT = 130


class NoWord(Exception):
    """A file or a record that has no word to draw."""


def choose(answers, number, every):
    """The answers to draw: one record's, every word's, or the first accepted word's."""
    words = [answer for answer in answers if answer.record.kind == 3]
    if number is not None:
        chosen = [answer for answer in words if answer.number == number]
        if not chosen:
            raise NoWord(f"record {number} is not a word; the words are records {listing(words)}")
        return chosen
    if not words:
        raise NoWord("there is no word in this file")
    accepted = [answer for answer in words if answer.listed]
    return words if every else (accepted or words)[:1]


def listing(answers):
    return ", ".join(str(answer.number) for answer in answers) or "(none)"


# Words of the picture


def sentence(words):
    return words[0].upper() + words[1:] + "."


def heading(answer):
    many = len(answer.candidates)
    count = "no reading" if many == 0 else "1 reading" if many == 1 else f"{many} readings"
    return f"Record {answer.number}: a word with {count}" if answer.listed else f"Record {answer.number}: a refused word"


def under_heading(answer):
    if not answer.listed:
        return sentence(cause(answer.refusal, answer.record, answer.setting))
    p, n, k, s, tau = answer.setting
    return f"p {p}, n {n}, k {k}, s {s}, τ {tau}"


def description(answer):
    """All that the picture shows, for those who cannot see it."""
    word = " ".join(map(str, answer.record.numbers))
    parts = [f"Record {answer.number}, word {word}." if word else f"Record {answer.number}, an empty word."]
    parts.append(sentence(list_words(answer)) if answer.listed else under_heading(answer))
    for number, candidate in enumerate(answer.candidates, 1):
        message = " ".join(map(str, candidate.message))
        parts.append(f"Reading {number}, message {message}: {candidate_words(answer, candidate)}.")
    return " ".join(parts)


def message_lines(message):
    """A message's symbols in lines that fit beside the marks."""
    lines = [""]
    for symbol in map(str, message):
        joined = f"{lines[-1]} {symbol}".strip()
        if len(joined) <= MESSAGE_WIDTH:
            lines[-1] = joined
        else:
            lines.append(symbol)
    return lines


# Drawing


def add(parent, tag, text=None, **attributes):
    """A new element; `of` gives its class, a word that Python keeps for itself."""
    given = {"class" if name == "of" else name: str(value) for name, value in attributes.items()}
    child = ET.SubElement(parent, tag, given)
    child.text = text
    return child


class Sheet:
    """The measures that all words of one picture share."""

    def __init__(self, answers):
        marks = [x for a in answers for x in a.record.numbers + (a.points or ())]
        digits = max((len(str(x)) for x in marks), default=1)
        self.cell = max(32, 8 * digits + 10)
        lines = [line for a in answers for c in a.candidates for line in message_lines(c.message)]
        self.left = PAD + 8 * max([len("as received")] + [len(line) for line in lines]) + 16
        widest = max(min(len(a.record.numbers), BAND) for a in answers)
        # A short word still leaves room for the sentence below it.
        self.right = self.left + self.cell * max(widest, 7) + 16
        words = max(7 * len(under_heading(a)) for a in answers)
        self.width = max(self.right + RIGHT, PAD + words + PAD)


def draw_cell(sheet, parent, column, y, symbol, look, note=None):
    """One mark: its symbol, and below it the sign of agreement that its look has."""
    x = sheet.left + column * sheet.cell
    cell = add(parent, "g", of=look)
    if note:
        add(cell, "title", note)
    add(cell, "rect", x=x + 1, y=y, width=sheet.cell - 2, height=CELL_HEIGHT, rx=3)
    sign = {"agree": "=", "differ": "≠"}.get(look)
    middle = x + sheet.cell // 2
    add(cell, "text", str(symbol), x=middle, y=y + (17 if sign else 23), of="symbol")
    if sign:
        add(cell, "text", sign, x=middle, y=y + 31, of="sign")


def draw_word(sheet, parent, answer, places, y):
    """The points and the word as received; gives the height below them."""
    points = answer.points or ()
    add(parent, "text", "point" if points else "no points held", x=PAD, y=y + 12, of="label")
    for column, place in enumerate(places):
        if place < len(points):
            x = sheet.left + column * sheet.cell + sheet.cell // 2
            add(parent, "text", str(points[place]), x=x, y=y + 12, of="point")
    y += 18
    add(parent, "text", "word", x=PAD, y=y + 15, of="name")
    add(parent, "text", "as received", x=PAD, y=y + 30, of="label")
    for column, place in enumerate(places):
        draw_cell(sheet, parent, column, y, answer.record.numbers[place], "mark")
    return y + CELL_HEIGHT + ROW_GAP


def draw_candidate(sheet, parent, answer, index, places, y):
    """A candidate's patch beside its message and its count of agreements, which only the first band has."""
    candidate = answer.candidates[index]
    name = f"reading {index + 1}"
    add(parent, "text", name, x=PAD, y=y + 15, of="name")
    lines = message_lines(candidate.message) if places[0] == 0 else []
    for row, line in enumerate(lines):
        add(parent, "text", line, x=PAD, y=y + 30 + row * LINE, of="message")
    for column, place in enumerate(places):
        value, mark = candidate.patch[place], answer.record.numbers[place]
        look = "agree" if candidate.agrees[place] else "differ"
        note = f"place {place}, point {answer.points[place]}: {name} has {value}, the word {mark}"
        draw_cell(sheet, parent, column, y, value, look, note)
    if lines:
        n, needed = answer.setting.n, answer.setting.needed
        add(parent, "text", f"{candidate.count} of {n} agree", x=sheet.right, y=y + 15, of="name")
        add(parent, "text", f"n−τ = {needed} needed", x=sheet.right, y=y + 30, of="label")
    return y + max(CELL_HEIGHT, 20 + len(lines) * LINE) + ROW_GAP


def draw_answer(sheet, root, answer, y):
    """One word with its candidates; gives the height below it."""
    parent = add(root, "g", of="word")
    add(parent, "text", heading(answer), x=PAD, y=y + 18, of="heading")
    add(parent, "text", under_heading(answer), x=PAD, y=y + 38, of="label")
    y += 54
    length = len(answer.record.numbers)
    for start in range(0, max(length, 1), BAND):
        places = range(start, min(start + BAND, length))
        y = draw_word(sheet, parent, answer, places, y)
        for index in range(len(answer.candidates)):
            y = draw_candidate(sheet, parent, answer, index, places, y)
        y += ROW_GAP
    if not answer.candidates:
        reason = list_words(answer) if answer.listed else "refused, so nothing is listed"
        add(parent, "text", sentence(reason), x=sheet.left, y=y + 10, of="none")
        y += 24
    return y


def draw_legend(root, y):
    """What the two looks mean, and the numbers at the left."""
    parent = add(root, "g", of="legend")
    x = PAD
    for look, sign, words in [("agree", "=", "agrees with the word"), ("differ", "≠", "differs from it")]:
        key = add(parent, "g", of=f"key-{look}")
        add(key, "rect", x=x, y=y, width=22, height=20, rx=3)
        add(key, "text", sign, x=x + 11, y=y + 14, of="sign")
        add(parent, "text", words, x=x + 30, y=y + 14, of="label")
        x += 30 + 8 * len(words)
    add(parent, "text", "Left: the message, constant term first", x=PAD, y=y + 38, of="label")
    return y + 42


def draw(answers):
    """The picture of the chosen words as SVG text."""
    sheet = Sheet(answers)
    root = ET.Element("svg", {"xmlns": "http://www.w3.org/2000/svg", "role": "img", "aria-labelledby": "title desc"})
    title = heading(answers[0]) if len(answers) == 1 else f"{len(answers)} words and their readings"
    add(root, "title", title, id="title")
    add(root, "desc", " ".join(description(answer) for answer in answers), id="desc")
    add(root, "style", STYLE)
    root.append(ET.fromstring(DEFS))
    page = add(root, "rect", x=0, y=0, of="page")
    y = PAD
    for answer in answers:
        y = draw_answer(sheet, root, answer, y) + ROW_GAP
    if any(answer.candidates for answer in answers):
        y = draw_legend(root, y)
    height = y + PAD
    for element in (root, page):
        element.set("width", str(sheet.width))
        element.set("height", str(height))
    root.set("viewBox", f"0 0 {sheet.width} {height}")
    ET.indent(root)
    return HEAD + ET.tostring(root, encoding="unicode") + "\n"
