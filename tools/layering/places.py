# Where each crate stands in the picture. An arrow over several layers has a bend in each layer between, so that it goes between the boxes; arrows to the same crate share their bends. All in whole numbers: the picture is the same on every machine.
from dataclasses import dataclass, field
from fractions import Fraction

from layering.layers import arrows_of, layers_of

GAP = 26  # between two boxes of a layer
BEND = 14  # room beside an arrow that passes a layer
ROUNDS = 24
STRAY = 60  # how far a bend at the edge may move for its line


@dataclass
class Node:
    """A crate, or a bend on the way to one."""

    name: str
    layer: int
    width: int  # 0: a bend
    x: int = 0  # its middle
    below: list = field(default_factory=list)
    above: list = field(default_factory=list)


def join(upper, lower):
    upper.below.append(lower)
    lower.above.append(upper)


def rows_of(crates, width_of):
    """The layers from the bottom up, each as its nodes, joined from layer to layer."""
    layer = layers_of(crates)
    nodes = {name: Node(name, at, width_of(name)) for name, at in layer.items()}
    rows = [[] for _ in range(1 + max(layer.values(), default=-1))]
    for crate in crates:
        rows[layer[crate.name]].append(nodes[crate.name])
    bends = {}
    for name, under in arrows_of(crates).items():
        for other in under:
            at = nodes[other]
            for between in range(layer[other] + 1, layer[name]):
                if (other, between) not in bends:
                    bends[other, between] = Node(other, between, 0)
                    rows[between].append(bends[other, between])
                    join(bends[other, between], at)
                at = bends[other, between]
            join(nodes[name], at)
    return rows


# The order in each layer


def crossings(rows):
    """How often two arrows between the same two layers cross."""
    count = 0
    for upper, lower in zip(rows[1:], rows):
        place = {id(node): at for at, node in enumerate(lower)}
        ends = [end for above in upper for end in sorted(place[id(node)] for node in above.below)]
        count += sum(1 for i, a in enumerate(ends) for b in ends[i + 1 :] if a > b)
    return count


def middle(node, place, side):
    """The mean place of those that it is joined with on that side, its own place where there are none."""
    joined = getattr(node, side)
    return Fraction(sum(place[id(other)] for other in joined), len(joined)) if joined else None


def swept(rows, side):
    """Each layer sorted by the middles of the layer before; nodes that are joined with nothing there keep their places."""
    rows = [list(row) for row in rows]
    for at in range(1, len(rows)) if side == "below" else range(len(rows) - 2, -1, -1):
        before = rows[at - 1 if side == "below" else at + 1]
        place = {id(node): i for i, node in enumerate(before)}
        keys = {id(node): middle(node, place, side) for node in rows[at]}
        free = iter(sorted((node for node in rows[at] if keys[id(node)] is not None), key=lambda node: keys[id(node)]))
        rows[at] = [node if keys[id(node)] is None else next(free) for node in rows[at]]
    return rows


def swapped(rows):
    """Neighbours change places as long as that saves a crossing."""
    again = True
    while again:
        again = False
        for at, row in enumerate(rows):
            near = rows[max(at - 1, 0) : at + 2]  # only these see the change
            for i in range(len(row) - 1):
                before = crossings(near)
                row[i], row[i + 1] = row[i + 1], row[i]
                if crossings(near) < before:
                    again = True
                else:
                    row[i], row[i + 1] = row[i + 1], row[i]
    return rows


def ordered(rows):
    """The order with the fewest crossings that was seen on the way."""
    best = rows = swapped([list(row) for row in rows])
    for turn in range(ROUNDS):
        rows = swapped(swept(rows, "below" if turn % 2 else "above"))
        if crossings(rows) < crossings(best):
            best = [list(row) for row in rows]
    return best


# The places


def apart(left, right):
    """How far the middles of two neighbours are at least."""
    room = GAP if left.width and right.width else BEND
    return (left.width + right.width) // 2 + room


def settle(row, wishes):
    """Moves the nodes of a layer as little as possible from where they want to be, in their order and far enough apart: neighbours that are too near move together."""
    blocks = []  # of nodes that moved together: the sum of their wishes, of how much they want, and each with its place in the block
    offset = 0
    for at, (node, (wanted, weight)) in enumerate(zip(row, wishes)):
        offset += apart(row[at - 1], node) if at else 0
        blocks.append([(wanted - offset) * weight, weight, [(node, offset)]])
        while len(blocks) > 1 and blocks[-2][0] * blocks[-1][1] >= blocks[-1][0] * blocks[-2][1]:
            total, heavy, nodes = blocks.pop()
            blocks[-1] = [blocks[-1][0] + total, blocks[-1][1] + heavy, blocks[-1][2] + nodes]
    for total, heavy, nodes in blocks:
        for node, place in nodes:
            node.x = total // heavy + place


def lanes(rows):
    """Where the bends on the way to each crate would best stand in one line: in the middle of themselves and of what they join."""
    joined = {}
    for node in (node for row in rows for node in row if not node.width):
        joined.setdefault(node.name, []).extend([node.x] + [other.x for other in node.above + node.below])
    return {name: sum(places) // len(places) for name, places in joined.items()}


def wish(node, lane):
    """Where the node wants to be, and how much: a crate over the middle of its neighbours, a bend in its line."""
    if not node.width:
        return lane[node.name], 8
    joined = node.below + node.above
    return sum(other.x for other in joined) // len(joined) if joined else node.x, 1 + len(joined)


def straightened(rows):
    """Each node goes where it wants to be, from the bottom up and from the top down in turn."""
    for row in rows:
        settle(row, [(0, 1)] * len(row))
    for turn in range(8 * ROUNDS):
        for row in rows if turn % 2 == 0 else rows[::-1]:
            lane = lanes(rows)
            settle(row, [wish(node, lane) for node in row])


def room(row, at):
    """From where to where a node may move between its neighbours."""
    low = row[at - 1].x + apart(row[at - 1], row[at]) if at else row[at].x - STRAY
    high = row[at + 1].x - apart(row[at], row[at + 1]) if at + 1 < len(row) else row[at].x + STRAY
    return low, high


def snap(run, low, high):
    """Puts the bends of a run in one line, as near to where they are as that is free."""
    place = min(max(sum(node.x for node in run) // max(len(run), 1), low), high)
    for node in run:
        node.x = place


def snapped(rows):
    """The bends of each line one over the other, as long as no box is in the way."""
    for name in sorted({node.name for row in rows for node in row}):
        run, low, high = [], 0, 0
        for row in rows:
            for at in (at for at, node in enumerate(row) if node.name == name and not node.width):
                free = room(row, at)
                if run and max(low, free[0]) > min(high, free[1]):
                    snap(run, low, high)
                    run = []
                low, high = (max(low, free[0]), min(high, free[1])) if run else free
                run.append(row[at])
        snap(run, low, high)


def placed(crates, width_of):
    """The layers from the bottom up, each with its nodes from left to right, the leftmost edge at 0."""
    rows = ordered(rows_of(crates, width_of))
    straightened(rows)
    snapped(rows)
    left = min((node.x - node.width // 2 for row in rows for node in row), default=0)
    for row in rows:
        for node in row:
            node.x -= left
    return rows
