# What a refusal number says: document 01's words, and the numbers at hand that bear them out.
from looking.code import accepted_taus, derive

ROOM = 24000  # numbers of work that the program has

# Document 01's table, cut to what the patch program can meet. The flaw of a record is the cause of 10.
CAUSES = {
    1: "p not a prime from 2 to 929",
    2: "n, k, s or τ outside its range",
    3: "U ≤ C: τ is too large",
    4: "ℓ > 24: τ is too small",
    5: "points or word not n long",
    6: "a symbol not below p",
    7: "two equal points",
    8: "work under R",
    11: "another kind; the record is passed over",
}
NOT_HELD = {2: "points with no setting held", 3: "a word with no points held"}  # 12


def outside(setting):
    """Those of n, k, s and τ that are outside their ranges."""
    _, n, k, s, tau = setting
    ranges = [("n", n, 2, 64), ("k", k, 2, n), ("s", s, 1, 4), ("τ", tau, 0, n - 1)]
    return ", ".join(f"{name} {x} is not in {low} to {high}" for name, x, low, high in ranges if not low <= x <= high)


def derived_words(setting):
    """The derived numbers in words, or nothing where a range is left."""
    if outside(setting):
        return ""
    d = derive(setting)
    return f"W {d.W}, ℓ {d.l}, C {d.C}, U {d.U}, R {d.R}"


def detail_of_setting(refusal, setting):
    """The numbers behind the refusal of a setting."""
    if refusal == 1:
        return f"p is {setting.p}"
    if refusal == 2:
        return outside(setting)
    if refusal == 8:
        return f"{derived_words(setting)}; the program has {ROOM}"
    return derived_words(setting)


def detail_of_marks(refusal, marks, setting):
    """The numbers behind the refusal of points or a word, under the held setting."""
    if refusal == 5:
        return f"{len(marks)} here, n is {setting.n}"
    if refusal == 6:
        high = [f"{x} at place {place}, p is {setting.p}" for place, x in enumerate(marks) if x >= setting.p]
        return "".join(high[:1])
    if refusal == 7:
        twice = [f"{x} more than once" for x in marks if marks.count(x) > 1]
        return "".join(twice[:1])
    return ""


def limit(refusal, setting):
    """Where τ is refused, which one would not be. A larger τ needs less work."""
    taus = accepted_taus(setting)
    fitting = [tau for tau in taus if derive(setting._replace(tau=tau)).R <= ROOM]
    if not taus:
        return "; no τ is accepted with this n, k and s"
    if not fitting:
        return f"; the largest accepted is {taus[-1]}, which needs more work than the program has (8)"
    return f"; the largest accepted is {fitting[-1]}" if refusal == 3 else f"; the smallest accepted is {fitting[0]}"


def cause(refusal, record, setting):
    """A refusal in words; `setting` is the one given or held, or None."""
    words = CAUSES.get(refusal, "a number that document 01 does not have")
    if refusal in (3, 4) and record.kind == 1 and not outside(setting):
        words += limit(refusal, setting)
    detail = ""
    if record.flaw:
        words = record.flaw
    elif refusal == 12:
        words = NOT_HELD.get(record.kind, words)
    elif setting is not None and record.kind == 1:
        detail = detail_of_setting(refusal, setting)
    elif setting is not None and record.kind in (2, 3):
        detail = detail_of_marks(refusal, record.numbers, setting)
    return f"refused {refusal}: {words}" + (f" ({detail})" if detail else "")
