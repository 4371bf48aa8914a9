# An SVG picture of the crates in their layers, from bottom to top.
import xml.etree.ElementTree as ET

from layering.layers import arrows_of, layers_of
from layering.places import placed
from layering.style import HEAD, MARKER, STYLE

PAD = 20
LEFT = 46  # room for the layers' numbers
BOX = 30  # height of a box
STEP = 74  # from layer to layer
TOP = 58  # room for the heading
LINE = 26  # height of a line of the legend
HEAD_LONG = 8  # of an arrow

KINDS = {
    "inner": "a library of the product",
    "public": "a program of the product, or its library for C and Rust",
    "test": "only for tests, not part of the product",
}


def width_of(name):
    return 24 + 9 * len(name)


def kind_of(crate):
    return "test" if crate.heading else "public" if crate.is_public else "inner"


def add(parent, tag, text=None, **attributes):
    """A new element; `of` gives its class, a word that Python keeps for itself."""
    given = {{"of": "class"}.get(name, name.replace("_", "-")): str(value) for name, value in attributes.items()}
    child = ET.SubElement(parent, tag, given)
    child.text = text
    return child


class Sheet:
    """Where the layers stand on the page."""

    def __init__(self, rows):
        self.rows = rows
        right = max((node.x + (node.width + 1) // 2 for row in rows for node in row), default=0)
        self.width = max(LEFT + right + 2 * PAD, 640)
        self.shift = LEFT + PAD + (self.width - LEFT - 2 * PAD - right) // 2
        self.bottom = TOP + STEP * len(rows)

    def x(self, node):
        return self.shift + node.x

    def top(self, layer):
        """The upper edge of the layer's boxes."""
        return self.bottom - STEP * (layer + 1) + (STEP - BOX) // 2


def ports(sheet, node):
    """Where the line to each node below leaves: in their order, evenly spread over the box. A bend has one place."""
    room, many = max(node.width - 24, 0), len(node.below)
    below = sorted(node.below, key=lambda other: other.x)
    return {id(other): sheet.x(node) - room // 2 + room * (2 * at + 1) // (2 * many) for at, other in enumerate(below)}


def line(sheet, upper, lower):
    """From one layer to the next, and on between the boxes where it bends there. All arrows to a crate end in one point."""
    x, y = ports(sheet, upper)[id(lower)], sheet.top(upper.layer) + BOX
    to, end = sheet.x(lower), sheet.top(lower.layer) - (HEAD_LONG if lower.width else 0)
    half = (y + end) // 2
    passes = "" if lower.width else f" V {end + BOX}"
    return f"M {x} {y} C {x} {half} {to} {half} {to} {end}{passes}"


def draw_layers(sheet, root):
    """A band behind every other layer, and each layer's number."""
    for layer in range(len(sheet.rows)):
        y = sheet.bottom - STEP * (layer + 1)
        if layer % 2 == 0:
            add(root, "rect", x=PAD // 2, y=y, width=sheet.width - PAD, height=STEP, of="band")
        add(root, "text", str(layer), x=PAD, y=y + STEP // 2 + 5, of="number")


def draw_arrows(sheet, root, test):
    """Those of the tests first, so that the product's stand over them. A bend belongs to the tests where all that comes to it does."""
    found = {"test": [], "arrow": []}
    only = set()  # nodes from which only lines of tests go down
    for upper in (node for row in reversed(sheet.rows) for node in row):
        if upper.name in test if upper.width else all(id(other) in only for other in upper.above):
            only.add(id(upper))
        found["test" if id(upper) in only else "arrow"] += [(upper, lower) for lower in upper.below]
    group = add(root, "g", of="arrows")
    for of, lines in found.items():
        for upper, lower in lines:
            head = {"marker_end": f"url(#{of}-head)"} if lower.width else {}
            add(group, "path", d=line(sheet, upper, lower), of=of, **head)


def draw_boxes(sheet, root, crates):
    known = {crate.name: crate for crate in crates}
    for node in (node for row in sheet.rows for node in row if node.width):
        crate = known[node.name]
        box = add(root, "g", of=kind_of(crate))
        add(box, "title", crate.words or crate.name)
        add(box, "rect", x=sheet.x(node) - node.width // 2, y=sheet.top(node.layer), width=node.width, height=BOX, rx=5)
        add(box, "text", node.name, x=sheet.x(node), y=sheet.top(node.layer) + BOX // 2 + 5)


def draw_legend(sheet, root, kinds, kit):
    """What the boxes and the arrows mean; gives the height below."""
    y = sheet.bottom + PAD
    for kind in (kind for kind in KINDS if kind in kinds):
        key = add(root, "g", of=kind)
        add(key, "rect", x=PAD, y=y, width=36, height=18, rx=4)
        add(root, "text", KINDS[kind], x=PAD + 48, y=y + 14, of="label")
        y += LINE
    said = ["An arrow goes from a crate to one that it stands on;", "arrows that follow from others are left out."]
    said += [f"The kit's libraries are left out too: {', '.join(kit)}."] if kit else []
    said += ["The number at the left is the layer: one more than the highest that a crate stands on."]
    for words in said:
        add(root, "text", words, x=PAD, y=y + 14, of="label")
        y += LINE - 6
    return y + PAD


def description(crates):
    """All that the picture shows, for those who cannot see it."""
    layer, arrows = layers_of(crates), arrows_of(crates)
    parts = []
    for at in sorted(set(layer.values())):
        for name in (crate.name for crate in crates if layer[crate.name] == at):
            parts.append(f"Layer {at}: {name}" + (f", on {', '.join(arrows[name])}." if arrows[name] else "."))
    return " ".join(parts)


def draw(crates, kit):
    """The picture as SVG text."""
    sheet = Sheet(placed(crates, width_of))
    root = ET.Element("svg", {"xmlns": "http://www.w3.org/2000/svg", "role": "img", "aria-labelledby": "title desc"})
    title = "The crates and what they stand on"
    add(root, "title", title, id="title")
    add(root, "desc", description(crates), id="desc")
    add(root, "style", STYLE)
    root.append(ET.fromstring(MARKER))
    page = add(root, "rect", x=0, y=0, of="page")
    add(root, "text", title, x=PAD, y=PAD + 14, of="heading")
    draw_layers(sheet, root)
    draw_arrows(sheet, root, {crate.name for crate in crates if kind_of(crate) == "test"})
    draw_boxes(sheet, root, crates)
    height = draw_legend(sheet, root, {kind_of(crate) for crate in crates}, kit)
    for element in (root, page):
        element.set("width", str(sheet.width))
        element.set("height", str(height))
    root.set("viewBox", f"0 0 {sheet.width} {height}")
    ET.indent(root)
    return HEAD + ET.tostring(root, encoding="unicode") + "\n"
