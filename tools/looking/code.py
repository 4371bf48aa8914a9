# Document 01's code and setting, as far as a reader needs them to follow an answer.
from collections import namedtuple


class Setting(namedtuple("Setting", "p n k s tau")):
    @property
    def needed(self):
        """The places in which a listed message agrees with the word at least."""
        return self.n - self.tau


Derived = namedtuple("Derived", "W l C U R")


def patch_of(p, points, message):
    """The message polynomial's values at the points, constant term first, modulo p."""
    values = []
    for point in points:
        value = 0
        for symbol in reversed(message):
            value = (value * point + symbol) % p
        values.append(value)
    return values


def derive(setting):
    """The derived numbers of a setting that is in range."""
    _, n, k, s, tau = setting
    W = s * (n - tau)
    l = (W - 1) // (k - 1)
    C = n * s * (s + 1) // 2
    U = sum(W - t * (k - 1) for t in range(l + 1))
    return Derived(W, l, C, U, (l + k + 4) * (l + 1) * W)


def refusal_of(setting):
    """3, 4 or 0, of a setting in range."""
    d = derive(setting)
    if d.U <= d.C:
        return 3
    return 4 if d.l > 24 else 0


def accepted_taus(setting):
    """Every τ that is accepted with the setting's n, k and s."""
    p, n, k, s, _ = setting
    return [tau for tau in range(n) if refusal_of(Setting(p, n, k, s, tau)) == 0]
