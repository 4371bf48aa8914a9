"""Reels: patch files with one setting, its points and many words, the same for the same seed."""

import random
from dataclasses import dataclass

from rules import join, patch_of


def below(source, bound):
    """A number below the bound. Only random() gives the same numbers under every version of Python."""
    return int(source.random() * bound)


def chosen(source, count, bound):
    """So many different numbers below the bound."""
    left = list(range(bound))
    return [left.pop(below(source, len(left))) for _ in range(count)]


def word(source, setting, points, number):
    """Of ten words seven have τ wrong symbols, two have fewer, and one is random."""
    p, n = setting.p, setting.n
    if number % 10 == 9:
        return [below(source, p) for _ in range(n)]
    word = patch_of(p, points, [below(source, p) for _ in range(setting.k)])
    wrong = setting.tau if number % 10 < 7 else below(source, max(setting.tau, 1))
    for place in chosen(source, wrong, n):
        word[place] = (word[place] + 1 + below(source, p - 1)) % p
    return word


@dataclass
class Reel:
    """The first records (setting and points), and behind them so many words."""

    front: bytes
    words: bytes
    count: int

    def repeated(self, times):
        """The file in which the words come so many times one after another; 0 times leaves the setting and the points."""
        return self.front + self.words * times


def made(setting, count, seed):
    """The reel that follows from the setting and the seed."""
    source = random.Random(f"{seed} {setting.numbers}")
    points = chosen(source, setting.n, setting.p)
    words = [word(source, setting, points, number) for number in range(count)]
    front = join(1, setting.numbers) + join(2, points)
    return Reel(front, b"".join(join(3, w) for w in words), count)


def unread(setting, kind, symbol, count):
    """A reel whose records, all alike, are refused or passed over: nothing is read."""
    front = join(1, setting.numbers) + join(2, list(range(setting.n)))
    return Reel(front, join(kind, [symbol] * setting.n) * count, count)
