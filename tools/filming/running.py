# A whole film: cut, run and joined in one, in order, with a bounded number of parts on their way.
import os
import subprocess
import tempfile
from collections import deque
from concurrent.futures import ThreadPoolExecutor, wait

from filming.joining import numbered, pour
from filming.parts import cut
from looking.answers import ProgramError
from looking.records import stream
from looking.streams import read_lines, write_file

LEAST, MOST = 1 << 15, 1 << 19  # bytes of a part: starting the program should not count, and every job should have its share
AHEAD = 4  # parts for each job that are on their way


def part_size(total, jobs):
    """Bytes of a part: eight parts for each job, within bounds; where the film's length is not known, something between."""
    return max(LEAST, min(MOST, total // (8 * jobs))) if total else 1 << 17


class Runner:
    """Runs the program on parts, as many at a time as there are jobs; programs and files are gone when it ends."""

    def __init__(self, program, jobs):
        self.program = program
        self.pool = ThreadPoolExecutor(jobs)
        self.folder = tempfile.TemporaryDirectory(prefix="film-")
        self.running = set()
        self.stopped = False

    def __enter__(self):
        return self

    def __exit__(self, *_):
        self.stopped = True
        for process in list(self.running):
            process.terminate()
        self.pool.shutdown(cancel_futures=True)
        self.folder.cleanup()

    def start(self, part):
        return self.pool.submit(self.answer, part, os.path.join(self.folder.name, str(part.first)))

    def answer(self, part, path):
        """The path of the part's output, and what the program said on standard error."""
        write_file(path + ".patch", part.data())
        with open(path + ".patch", "rb") as source, open(path + ".out", "wb") as output:
            process = subprocess.Popen(self.program, stdin=source, stdout=output, stderr=subprocess.PIPE)
            self.running.add(process)
            if self.stopped:
                process.terminate()
            said = process.communicate()[1].decode("utf-8", "replace").strip()
            self.running.discard(process)
        os.unlink(path + ".patch")
        if process.returncode:
            raise ProgramError(f"{self.program[0]} ended with {process.returncode}" + (f": {said}" if said else ""))
        return path + ".out", said


def write_part(part, answer):
    """Writes the lines of a part, once the parts before it are written."""
    said = ""
    try:
        path, said = answer.result()
        pour(numbered(part, read_lines(path)))
    except ProgramError as error:
        last = part.first + len(part.records) - 1
        raise ProgramError(f"records {part.first} to {last}: {error}" + (f" ({said})" if said else ""))
    os.unlink(path)


def settle(started, most, bar):
    """Writes parts in order while they are done, and waits for those that are more than `most`."""
    while len(started) > most or (started and started[0][1].done()):
        part, answer = started.popleft()
        while not wait([answer], timeout=1).done:
            bar.show()
        write_part(part, answer)
        bar.add(len(part.records), sum(len(record.data) for record in part.records))


def run(blocks, total, jobs, program, bar):
    """Writes the film's output to standard output."""
    with Runner(program, jobs) as runner:
        started = deque()
        for part in cut(stream(blocks), part_size(total, jobs), lambda record: len(record.data)):
            started.append((part, runner.start(part)))
            settle(started, AHEAD * jobs - 1, bar)
        settle(started, 0, bar)
