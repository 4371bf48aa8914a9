"""The first table: the reels, both programs on the same words, and the ratio."""

import programs
import settings
from programs import Failure
from reels import made
from rules import join
from settings import Setting
from tables import head, rate, ratio, row

NAMES = ["p", "n", "k", "s", "τ", "ℓ", "R", "words", "ours, words/s", "second by curve, words/s", "ratio", "second by its own way, words/s", "ratio"]

# More tries than this for each word make the second program's own way too slow to wait for.
TRIES = 5000

# Operations to aim at in one run over a reel; a word has some more for its buffers.
AIM = 25_000_000
BUFFERS = 30_000


def words_for(setting, plan):
    """How many words: fewer where each costs more, in tens, so that each kind of word has its share."""
    if plan.words:
        return plan.words
    cost = setting.finder_count() + setting.search_count() + BUFFERS
    return min(max(AIM // cost // 10 * 10, 10), 400)


def chosen_tau(p, n, k, s):
    """The two τ with their names: half the distance, and the largest accepted (None where there is none)."""
    half, largest = settings.half(n, k), settings.largest(p, n, k, s)
    if half == largest:
        return [(half, "both")]
    return [(half, "half"), (largest, "largest")]


def check_rule(p, n, k, s):
    """Our setting rule against the second program's, for every τ."""
    for tau in range(n):
        ours = Setting(p, n, k, s, tau)
        refusal = ours.refusal()
        derived = [0] * 5 if refusal else [ours.w, ours.l, ours.c, ours.u, ours.r]
        said = programs.output([programs.SECOND, "setting", *map(str, ours.numbers)], b"")
        if [int(number) for number in said.split()] != [refusal, *derived]:
            raise Failure(f"setting {ours.numbers}: here {[refusal, *derived]}, second program {said.decode()!r}")


def check_refusal(setting, printed):
    """The programs must answer the setting record as the rule here says."""
    first = printed.split(b"\n")[0].decode()
    if first != f"1 1 {setting.program_refusal()}":
        raise Failure(f"reel {setting.numbers}: first line {first!r}, expected refusal {setting.program_refusal()}")


def own_way(setting, reel, plan, ours):
    """The last two cells: the way that the second program takes by itself."""
    way, tries = setting.own_way()
    if way == "curve":
        return ["curve", "as before"]
    if tries > TRIES:
        return [f"{way}, {tries:,} tries: too slow, not run", "—"]
    other = programs.measured([programs.OURS, programs.BY_OWN_WAY], reel, plan, f"reel {setting.numbers}, {way}")[1]
    return [f"{rate(other)} ({way}, {tries:,} tries)", ratio(ours, other)]


def figures(setting, reel, plan):
    """The cells behind the words: rates and ratios, or the refusal."""
    commands = plan.commands()
    refusal = setting.program_refusal()
    what = f"reel {setting.numbers}"
    check_refusal(setting, programs.compared(commands, reel.repeated(1 if refusal else 0), what))
    if refusal:
        return [f"refused {refusal}", f"refused {refusal}" if plan.second else "—", "—", "—", "—"]
    ours, *other = programs.measured(commands, reel, plan, what)
    if not other:
        return [rate(ours), "—", "—", "—", "—"]
    return [rate(ours), rate(other[0]), ratio(ours, other[0]), *own_way(setting, reel, plan, ours)]


def case(setting, name, plan):
    """The row of one reel."""
    reel = made(setting, words_for(setting, plan), plan.seed)
    cells = [*setting.numbers[:4], f"{setting.tau} {name}", setting.l, f"{setting.r:,}", reel.count]
    return row(cells + figures(setting, reel, plan))


def cases(p, n, k, s, plan):
    """The rows of one p, n, k and s."""
    if plan.second:
        check_rule(p, n, k, s)
    for tau, name in chosen_tau(p, n, k, s):
        if tau is None:
            yield row([p, n, k, s, name, "—", "—", 0, "no τ is accepted", "no τ is accepted" if plan.second else "—", "—", "—", "—"])
        else:
            yield case(Setting(p, n, k, s, tau), name, plan)


def table(plan):
    yield head(NAMES)
    for p, n, k, s in plan.reels:
        yield from cases(p, n, k, s, plan)


def no_points(p, n, plan):
    """Why there is no reel with more points than symbols: the programs are asked for it, with points that are too large and with points that come again."""
    setting = Setting(p, n, 8, 1, settings.half(n, 8))
    answers = []
    for points, refusal in (range(n), 6), ([j % p for j in range(n)], 7):
        file = join(1, setting.numbers) + join(2, list(points))
        printed = programs.compared(plan.commands(), file, f"p {p}, n {n}")
        if not printed.endswith(f"2 2 {refusal}\n".encode()):
            raise Failure(f"p {p}, n {n}: points were to be refused with {refusal}, printed {printed.decode()!r}")
        answers.append(refusal)
    return f"p {p}, n {n}: there are only {p} symbols, so no {n} distinct points. Points 0 to {n - 1} are refused with {answers[0]}, points 0 to {p - 1} and again from 0 on with {answers[1]}. n {p}, the largest that p {p} allows, is measured instead."
