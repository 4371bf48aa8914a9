"""What a record costs when no word is read."""

import programs
from reels import unread
from settings import Setting
from tables import head, micro, row

SETTING = Setting(929, 32, 8, 1, 14)


def table(plan):
    """A record that is passed over, and a word that is refused for a symbol: the second is gone through, and its setting is tested again."""
    count = 200 if plan.quick else 2000
    yield "## A record without a reading\n"
    yield head(["record", "ours, µs", "second, µs"])
    for name, kind, symbol in ("passed over (11)", 9, 0), ("word refused for a symbol (6)", 3, SETTING.p):
        seconds = programs.measured(plan.commands(), unread(SETTING, kind, symbol, count), plan, name)
        yield row([name, *map(micro, seconds), *([] if plan.second else ["—"])])
    yield "\nFor both our program makes 132 bytes, reads the record into them and prints a line. For the refused word it also makes 64 numbers, and tests the setting, the points and the word. The buffers in which words are read are made once, and cleared for neither."
