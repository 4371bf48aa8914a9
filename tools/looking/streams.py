# Bytes from and to files, each one or an error that names the file; one that is not ready is waited for.
import errno
import os
import select
import sys

BLOCK = 1 << 16
LONGEST = 4096  # more than any line of an output


def check_standard():
    """Before any file is opened: a closed standard stream would give its number to that file, which would be read or written in its place."""
    if sys.stderr is None:
        os.dup2(os.open(os.devnull, os.O_WRONLY), 2)
        sys.stderr = open(2, "w", closefd=False)
    for stream, name in ((sys.stdin, "standard input"), (sys.stdout, "standard output")):
        if stream is None:
            raise OSError(errno.EBADF, "closed", name)


def say(name, words):
    """A message, each line behind the tool's name. That nobody can read it is no failure of its own."""
    try:
        print("".join(f"{name}: {line}\n" for line in words.splitlines()), end="", file=sys.stderr, flush=True)
    except OSError:
        pass


def read_blocks(fd, name="standard input"):
    """The bytes of a descriptor in blocks, to its end."""
    while True:
        try:
            block = os.read(fd, BLOCK)
        except BlockingIOError:
            select.select([fd], [], [])
            continue
        except OSError as error:
            raise OSError(error.errno, error.strerror, name)
        if not block:
            return
        yield block


def read_file(name):
    """The bytes of a file; - is standard input."""
    if name == "-":
        return b"".join(read_blocks(0))
    with open(name, "rb", buffering=0) as file:
        return b"".join(read_blocks(file.fileno(), name))


def read_lines(name):
    """The lines of a file with their ends; what is not ASCII becomes a sign that no output has, and a line that is longer than any ends them."""
    with open(name, "rb", buffering=0) as file:
        rest = b""
        for block in read_blocks(file.fileno(), name):
            *lines, rest = (rest + block).split(b"\n")
            yield from (line.decode("ascii", "replace") + "\n" for line in lines)
            if len(rest) > LONGEST:
                break
    if rest:
        yield rest[:80].decode("ascii", "replace")


def write_all(data, fd=1, name="standard output"):
    """Every byte, in order."""
    rest = memoryview(data)
    while rest:
        try:
            rest = rest[os.write(fd, rest) :]
        except BlockingIOError:
            select.select([], [fd], [])
        except OSError as error:
            raise OSError(error.errno, error.strerror, name)


def close(fd=1, name="standard output"):
    """Some systems tell only here that what was written found no room."""
    try:
        os.close(fd)
    except OSError as error:
        raise OSError(error.errno, error.strerror, name)


def write_file(name, data, more=os.O_TRUNC):
    """A file of these bytes; with os.O_EXCL for `more` it must be new."""
    fd = os.open(name, os.O_WRONLY | os.O_CREAT | more, 0o666)
    write_all(data, fd, name)
    close(fd, name)
