# How far a run is, on a terminal.
import shutil
import sys
import time

WIDE = 20


def span(seconds):
    """A time as 1:02:03."""
    minutes, second = divmod(int(seconds), 60)
    hour, minute = divmod(minutes, 60)
    return f"{hour}:{minute:02}:{second:02}"


class Bar:
    """A line on standard error that is written over; nothing where that is no terminal, or where the output itself is shown."""

    def __init__(self, total):
        self.total = total
        self.shown = sys.stderr.isatty() and not sys.stdout.isatty()
        self.start = time.monotonic()
        self.records = self.bytes = 0
        self.show()

    def add(self, records, size):
        self.records += records
        self.bytes += size
        self.show()

    def text(self):
        spent = time.monotonic() - self.start
        pace = f"{self.records} records, {self.records / max(spent, 0.001):.0f}/s, {span(spent)}"
        if not self.total:
            return pace
        part = min(self.bytes / self.total, 1)
        left = f", {span(spent / part - spent)} left" if 0 < part < 1 else ""
        return f"[{'#' * int(part * WIDE):{WIDE}}] {part:4.0%} {pace}{left}"

    def show(self):
        if self.shown:
            text = self.text()[: shutil.get_terminal_size().columns - 1]
            print(f"\r{text}\x1b[K", end="", file=sys.stderr, flush=True)

    def end(self):
        if self.shown:
            print(file=sys.stderr)
