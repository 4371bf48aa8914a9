"""Figures as text, and Markdown tables."""

from math import log


def figure(x):
    """Three figures that count, no more."""
    if x is None:
        return "too short"
    if x >= 100:
        return f"{x:,.0f}"
    return f"{x:.1f}" if x >= 10 else f"{x:.2f}"


def rate(seconds):
    """Words per second."""
    return figure(None if seconds is None else 1 / seconds)


def micro(seconds):
    """Microseconds."""
    return figure(None if seconds is None else seconds * 1e6)


def ratio(ours, other):
    """Our words per second over the other program's: above 1 ours is quicker."""
    return figure(None if ours is None or other is None else other / ours)


def row(cells):
    return "| " + " | ".join(str(cell) for cell in cells) + " |"


def head(names):
    """The two lines above a table's rows."""
    return row(names) + "\n" + row(["---"] * len(names))


def slope(xs, ys):
    """The exponent of growth: by least squares the slope of log y against log x."""
    pairs = [(log(x), log(y)) for x, y in zip(xs, ys)]
    mx = sum(x for x, _ in pairs) / len(pairs)
    my = sum(y for _, y in pairs) / len(pairs)
    return sum((x - mx) * (y - my) for x, y in pairs) / sum((x - mx) ** 2 for x, _ in pairs)


def solved(matrix, right):
    """The solution of as many equations as unknowns, by elimination with the largest pivot."""
    rows = [[*row, value] for row, value in zip(matrix, right)]
    for column in range(len(rows)):
        pivot = max(range(column, len(rows)), key=lambda at: abs(rows[at][column]))
        rows[column], rows[pivot] = rows[pivot], rows[column]
        for at in range(len(rows)):
            if at != column:
                factor = rows[at][column] / rows[column][column]
                rows[at] = [a - factor * b for a, b in zip(rows[at], rows[column])]
    return [row[-1] / row[at] for at, row in enumerate(rows)]


def fitted(parts, values):
    """One factor for each part, so that the parts add up to the values with the least squares of the relative deviations; and the largest of these."""
    scaled = [[part / value for part in row] for row, value in zip(parts, values)]
    places = range(len(scaled[0]))
    matrix = [[sum(row[i] * row[j] for row in scaled) for j in places] for i in places]
    factors = solved(matrix, [sum(row[i] for row in scaled) for i in places])
    sums = [sum(factor * part for factor, part in zip(factors, row)) for row in scaled]
    return factors, max(abs(total - 1) for total in sums)
