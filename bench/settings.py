"""Settings: which τ are taken, and how many operations a word is expected to cost."""

from dataclasses import dataclass
from functools import cached_property
from math import comb

from rules import ROOM, accepted_taus, derive, refusal_of

# The second program takes the curve when more messages or choices of places than this would be tried.
AFFORDABLE = 200_000


@dataclass(frozen=True)
class Setting:
    p: int
    n: int
    k: int
    s: int
    tau: int

    @property
    def numbers(self):
        return (self.p, self.n, self.k, self.s, self.tau)

    @cached_property
    def derived(self):
        return derive(self.numbers)

    w = property(lambda self: self.derived.W)
    l = property(lambda self: self.derived.l)
    c = property(lambda self: self.derived.C)
    u = property(lambda self: self.derived.U)
    r = property(lambda self: self.derived.R)

    def refusal(self):
        """3 or 4 of the setting call; p, n, k, s and τ are in their ranges here."""
        return refusal_of(self.numbers)

    def program_refusal(self):
        """The same, or 8 where the program's work is too small."""
        return self.refusal() or (8 if self.r > ROOM else 0)

    def finder_count(self):
        """C conditions, at each of which ℓ+1 curves of U numbers are valued; the sweep and the raise go over as many again."""
        return 2 * self.c * (self.l + 1) * self.u

    def search_count(self):
        """For one reading: at each of k lengths every symbol is tried in ℓ+1 rows, and one step over the rows is made."""
        walk = self.p * (self.l + 1)
        step = self.w * self.l * (self.l + 1) // 2
        return self.k * (walk + step)

    def elimination_count(self):
        """What the second program's elimination takes for the curve."""
        return self.c**3 // 3

    def own_way(self):
        """The way that the second program takes when none is named, and how many it tries for a word."""
        every, choices = self.p**self.k, comb(self.tau + self.k, self.k)
        if min(every, choices) > AFFORDABLE:
            return "curve", None
        return ("all", every) if every <= choices else ("subsets", choices)


def half(n, k):
    """Half the distance."""
    return (n - k) // 2


def largest(p, n, k, s):
    """The largest τ that the setting rule accepts, or None."""
    return max(accepted_taus((p, n, k, s, 0)), default=None)


def largest_with_room(p, n, k, s):
    """The largest τ that the program takes, or None."""
    taken = [tau for tau in range(n) if Setting(p, n, k, s, tau).program_refusal() == 0]
    return max(taken, default=None)
