"""The second part: how the time for a word grows with n, s and ℓ, beside the operations that one expects."""

import programs
import settings
from cases import words_for
from reels import made
from settings import Setting
from tables import figure, fitted, head, micro, row, slope

NAMES = ["n", "k", "s", "τ", "W", "ℓ", "C", "U", "finder count", "search count", "ours, µs/word", "ns a count", "second by curve, µs/word"]


def with_largest(p, n, k, s):
    return Setting(p, n, k, s, settings.largest_with_room(p, n, k, s))


def series(quick):
    """Each with its title, the number that grows, and the settings."""
    ns = (16, 24) if quick else (16, 24, 32, 48, 64)
    ss = (1, 2) if quick else (1, 2, 3, 4)
    taus = (24, 21) if quick else (24, 21, 18, 14, 11, 7)
    ks = (16, 8) if quick else (16, 11, 8, 6, 5, 4)
    return [
        ("n, at k 8, s 2 and the largest τ within the program's room", "n", [with_largest(929, n, 8, 2) for n in ns]),
        ("s, at n 32, k 8 and the largest τ", "s", [with_largest(929, 32, 8, s) for s in ss]),
        ("ℓ by τ, at n 32, k 2, s 1: W is ℓ+1, C stays", "l", [Setting(929, 32, 2, 1, tau) for tau in taus]),
        ("ℓ by k, at n 32, s 2, τ 8: W and C stay", "l", [Setting(929, 32, k, 2, 8) for k in ks]),
    ]


def measure(setting, plan):
    """Seconds for a word by our program and by the second one, on the same words, the outputs compared."""
    reel = made(setting, words_for(setting, plan), plan.seed)
    return programs.measured(plan.commands(), reel, plan, f"growth {setting.numbers}")


def line(setting, seconds):
    finder, search = setting.finder_count(), setting.search_count()
    ours, *other = seconds
    cells = [setting.n, setting.k, setting.s, setting.tau, setting.w, setting.l, setting.c, setting.u, f"{finder:,}", f"{search:,}"]
    each = None if ours is None else ours * 1e9 / (finder + search)
    return row(cells + [micro(ours), figure(each), micro(*other) if other else "—"])


def exponents(name, all_settings, measured):
    """The slopes of the measured times and of the counts, against the number that grows."""
    grown = [getattr(setting, name) for setting in all_settings]
    letter = "ℓ" if name == "l" else name
    found = [("our time", [seconds[0] for seconds in measured])]
    found.append(("finder and search count", [t.finder_count() + t.search_count() for t in all_settings]))
    found.append(("finder count alone", [t.finder_count() for t in all_settings]))
    if len(measured[0]) > 1:
        found.append(("the second program's time", [seconds[1] for seconds in measured]))
        found.append(("its elimination count, C³/3", [t.elimination_count() for t in all_settings]))
    told = [f"{what} {slope(grown, ys):.2f}" for what, ys in found if None not in ys]
    return f"Exponent against {letter}: " + "; ".join(told) + "."


def explained(all_rows):
    """One price for each count and one for each word, over every setting above: least squares of the relative deviation."""
    told = [(setting, seconds[0]) for setting, seconds in all_rows if seconds[0] is not None]
    parts = [[setting.finder_count(), setting.search_count(), 1] for setting, _ in told]
    prices, worst = fitted(parts, [ours for _, ours in told])
    finder, search, word = prices
    return f"Over all settings above our time is {finder * 1e9:.1f} ns · finder count + {search * 1e9:.1f} ns · search count + {word * 1e6:.0f} µs; no setting is off by more than {worst:.0%}."


def tables(plan):
    """The tables, line by line, each with its exponents below."""
    all_rows = []
    for title, name, all_settings in series(plan.quick):
        yield f"\n### Growth with {title}\n"
        yield head(NAMES)
        measured = []
        for setting in all_settings:
            measured.append(measure(setting, plan))
            yield line(setting, measured[-1])
        all_rows += zip(all_settings, measured)
        yield "\n" + exponents(name, all_settings, measured)
    yield "\nfinder count: 2·C·(ℓ+1)·U; search count: k·(p·(ℓ+1) + W·ℓ·(ℓ+1)/2), for one reading. p is 929."
    yield explained(all_rows)
