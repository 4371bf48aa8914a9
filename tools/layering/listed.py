# crates.txt: the crates in their order, each with what it stands on, the words above it and the heading that it stands under.
from dataclasses import dataclass


class ListError(Exception):
    """A crates.txt that cannot be drawn."""


@dataclass(frozen=True)
class Crate:
    name: str
    stands_on: tuple  # names of other crates of the list, in its order
    words: str  # the comment above it
    heading: str  # the words of the last line `# -- words --` above it, or nothing

    @property
    def is_public(self):
        """Whether users run or link it."""
        return not self.heading and (self.words.startswith("a program") or "for C and Rust" in self.words)


def lines(text):
    """Each crate's line with the comment right above it and its heading."""
    words = heading = ""
    for number, line in enumerate(text.splitlines(), 1):
        if line.startswith("# --"):
            heading = line.strip("# -")
        elif line.startswith("#"):
            words = line[1:].strip()
        elif line.strip():
            name, colon, names = line.partition("#")[0].partition(":")
            if not colon:
                raise ListError(f"line {number}: expected NAME: NAME NAME")
            yield name.strip().partition(" ")[0], names.split(), words, heading
            words = ""


def read(text):
    """The crates, and the names that are none of them: the kit's libraries."""
    found = list(lines(text))
    listed = [name for name, *_ in found]
    twice = sorted({name for name in listed if listed.count(name) > 1})
    if twice:
        raise ListError(f"listed twice: {', '.join(twice)}")
    crates = [Crate(name, tuple(n for n in listed if n in names), words, heading) for name, names, words, heading in found]
    kit = sorted({n for _, names, *_ in found for n in names if n not in listed})
    return crates, kit
