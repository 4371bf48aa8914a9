# Each record in text form, and below it the program's lines beside what they say.
from looking.causes import cause, derived_words
from looking.form import BYTES_IN_LINE, byte_lines, line_of, width_of

SHOWN_LINES = 4  # lines of bytes shown of a record where the program stops
INDENT = "     "
WIDEST = 24  # a longer line of the program has its words below it


def agreement_words(candidate):
    """How far a candidate agrees with the word."""
    n = len(candidate.agrees)
    if candidate.count == n:
        return f"agrees in all {n} places"
    places = " ".join(map(str, candidate.differs))
    label = "places" if len(candidate.differs) > 1 else "place"
    return f"agrees in {candidate.count} of {n}; differs at {label} {places}"


def list_words(answer):
    """How long the list of an accepted word is."""
    n, needed = answer.setting.n, answer.setting.needed
    many = len(answer.candidates)
    if many == 0:
        return f"no message agrees in at least {needed} of {n} places"
    return f"{many} message{'s agree' if many > 1 else ' agrees'} in at least {needed} of {n} places"


def answer_words(answer):
    """What a record's own line says."""
    if answer.refusal:
        return cause(answer.refusal, answer.record, answer.setting)
    if answer.record.kind == 3:
        return "accepted: " + list_words(answer)
    if answer.record.kind == 1:
        return "accepted: " + derived_words(answer.setting)
    return "accepted"


def candidate_words(answer, candidate):
    """Agreement, with a warning where a program lists a message that has too little of it."""
    needed = answer.setting.needed
    short = "" if candidate.count >= needed else f"; too few, {needed} are needed"
    return agreement_words(candidate) + short


def asked_lines(answer, width):
    """The record in text form, its number in front."""
    record = answer.record
    if not record.flaw:
        return [f"{answer.number:<4} {line_of(record, width)}"]
    lines = byte_lines(record.data[: SHOWN_LINES * BYTES_IN_LINE])
    shown = [f"{answer.number:<4} {lines[0]}"] + [INDENT + line for line in lines[1:]]
    more = -(-len(record.data) // BYTES_IN_LINE) - SHOWN_LINES
    if more > 0:
        shown.append(f"{INDENT}# and {more} more such lines")
    return shown


def beside(line, words, column):
    """A program's line and its words, side by side where it is short."""
    if len(line) <= column:
        return [f"{INDENT}{line:{column}}  {words}"]
    return [INDENT + line, f"{INDENT}{'':{column}}  {words}"]


def show(answers):
    """The whole file as text."""
    if not answers:
        return "no record\n"
    width = width_of([answer.record for answer in answers])
    lengths = [len(line) for answer in answers for line in answer.lines]
    column = max((x for x in lengths if x <= WIDEST), default=0)
    blocks = []
    for answer in answers:
        words = [answer_words(answer)] + [candidate_words(answer, c) for c in answer.candidates]
        block = asked_lines(answer, width)
        for line, said in zip(answer.lines, words):
            block.extend(beside(line, said, column))
        blocks.append("".join(line + "\n" for line in block))
    return "\n".join(blocks)
