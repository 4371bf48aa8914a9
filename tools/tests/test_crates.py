# The picture of the crates: that docs/crates.svg is current, and that layers, arrows, kinds and places are what they should be.
import re
import subprocess
import sys
import tempfile
import unittest
import xml.etree.ElementTree as ET
from pathlib import Path

from cases import TOP
from layering import listed, picture
from layering.layers import arrows_of, layers_of
from layering.places import crossings, ordered, rows_of

SVG = "{http://www.w3.org/2000/svg}"

# As many layers and crates as a large repository has, with arrows over many layers.
LARGE = "\n".join(
    f"# crate {i}\nc{i}: " + " ".join(f"c{j}" for j in range(i) if (i * 7 + j * 5) % 11 < 3 or j == i - 3) for i in range(36)
)


def crates_of(text):
    return listed.read(text)[0]


def run(*args):
    """tools/crates as a person runs it: exit code and what it says."""
    command = [sys.executable, str(TOP / "tools/crates"), *map(str, args)]
    done = subprocess.run(command, stdout=subprocess.PIPE, stderr=subprocess.STDOUT)
    return done.returncode, done.stdout.decode()


class Kept(unittest.TestCase):
    def test_the_picture_is_current(self):
        self.assertEqual(run("--check"), (0, ""))

    def test_a_picture_that_is_not_is_told(self):
        text = (TOP / "crates.txt").read_text(encoding="utf-8")
        others = text + "# one more\nanother: rules\n", text.replace("parsing: rules text", "parsing: rules"), text.replace("# -- ", "# ")
        told = (1, "crates: docs/crates.svg is out of date; tools/crates draws it\n")
        with tempfile.TemporaryDirectory() as room:
            top = Path(room)
            (top / "docs").mkdir()
            (top / "crates.txt").write_text(text, encoding="utf-8")
            self.assertEqual(run("--check", "--top", top), told, "there is no picture yet")
            self.assertEqual((run("--top", top), run("--check", "--top", top)), ((0, ""), (0, "")))
            for other in others:
                with self.subTest(other=other):
                    (top / "crates.txt").write_text(other, encoding="utf-8")
                    self.assertEqual(run("--check", "--top", top), told)
            self.assertEqual((top / "docs/crates.svg").read_bytes(), (TOP / "docs/crates.svg").read_bytes(), "a check writes nothing")
            self.assertEqual((run("--top", top), run("--check", "--top", top)), ((0, ""), (0, "")))

    def test_the_readme_shows_it(self):
        self.assertTrue("](docs/crates.svg)" in (TOP / "README.md").read_text(encoding="utf-8"))


class List(unittest.TestCase):
    TEXT = "# the ground\nlow:\n# a program: it runs\nhigh: io low\n\n# -- only for tests --\n# a program: it tests\ntest: low os\n"

    def test_crates_and_their_words(self):
        crates, kit = listed.read(self.TEXT)
        self.assertEqual([(c.name, c.stands_on, c.words, c.heading) for c in crates], [
            ("low", (), "the ground", ""),
            ("high", ("low",), "a program: it runs", ""),
            ("test", ("low",), "a program: it tests", "only for tests"),
        ])
        self.assertEqual(kit, ["io", "os"])

    def test_kinds(self):
        self.assertEqual([picture.kind_of(crate) for crate in crates_of(self.TEXT)], ["inner", "public", "test"])
        shown = {crate.name: picture.kind_of(crate) for crate in crates_of((TOP / "crates.txt").read_text(encoding="utf-8"))}
        self.assertEqual(sorted(name for name, kind in shown.items() if kind == "public"), ["patch", "whitebeamish"])
        self.assertEqual({name for name, kind in shown.items() if kind == "test"}, {name for name in shown if name.startswith("test_")})

    def test_the_product_stands_on_no_test(self):
        crates = crates_of((TOP / "crates.txt").read_text(encoding="utf-8"))
        tests = {crate.name for crate in crates if crate.heading}
        self.assertTrue(tests)
        self.assertEqual([crate.name for crate in crates if not crate.heading and tests.intersection(crate.stands_on)], [])

    def test_what_cannot_be_drawn(self):
        for text, words in ("a: b\nb: a\n", "ring"), ("a:\na:\n", "twice: a"), ("a\n", "line 1"):
            with self.subTest(text=text), self.assertRaisesRegex(listed.ListError, words):
                picture.draw(*listed.read(text))
            with tempfile.TemporaryDirectory() as room:
                (Path(room) / "crates.txt").write_text(text, encoding="utf-8")
                self.assertEqual(run("--top", room)[0], 2)


class Layers(unittest.TestCase):
    def test_one_above_the_highest(self):
        self.assertEqual(layers_of(crates_of("top: low mid\nmid: low\nlow:\nother:\n")), {"low": 0, "mid": 1, "top": 2, "other": 0})

    def test_arrows_that_follow_are_left_out(self):
        for text, expected in [
            ("a:\nb: a\nc: a b\n", {"a": [], "b": ["a"], "c": ["b"]}),
            ("a:\nb: a\nc: a\nd: a b c\n", {"a": [], "b": ["a"], "c": ["a"], "d": ["b", "c"]}),
            ("a:\nb: a\nc: b\nd: a c\n", {"a": [], "b": ["a"], "c": ["b"], "d": ["c"]}),
            ("a:\nb:\nc: a\nd: b c\n", {"a": [], "b": [], "c": ["a"], "d": ["b", "c"]}),
        ]:
            with self.subTest(text=text):
                self.assertEqual(arrows_of(crates_of(text)), expected)

    def test_nothing_is_lost_by_it(self):
        """From each crate the arrows lead to all that it stands on."""
        crates = crates_of(LARGE)
        arrows = arrows_of(crates)

        def reached(names):
            return set(names).union(*(reached(arrows[name]) for name in names))

        for crate in crates:
            self.assertLessEqual(set(crate.stands_on), reached(arrows[crate.name]))

    def test_order_saves_crossings(self):
        rows = rows_of(crates_of("a:\nb:\nc:\nd: c\ne: b\nf: a\n"), len)
        self.assertEqual((crossings(rows), crossings(ordered(rows))), (3, 0))


def numbers(element, *names):
    return [int(element.get(name)) for name in names]


def points(path):
    """Places on a line of the picture: along its curve, and along the straight part where it passes a layer."""
    x0, y0, x1, y1, x2, y2, x3, y3, *end = map(int, re.findall(r"-?\d+", path))
    for i in range(41):
        t = i / 40
        u = 1 - t
        yield (u**3 * x0 + 3 * u * u * t * x1 + 3 * u * t * t * x2 + t**3 * x3, u**3 * y0 + 3 * u * u * t * y1 + 3 * u * t * t * y2 + t**3 * y3)
    for y in end:
        yield from ((x3, y3 + (y - y3) * i / 10) for i in range(11))


class Places(unittest.TestCase):
    @classmethod
    def setUpClass(cls):
        cls.texts = [(TOP / "crates.txt").read_text(encoding="utf-8"), LARGE, "alone:\n", "\n"]
        cls.roots = [ET.fromstring(picture.draw(*listed.read(text))) for text in cls.texts]

    def boxes(self, root):
        return [numbers(g.find(SVG + "rect"), "x", "y", "width", "height") for g in root.iter(SVG + "g") if g.find(SVG + "text") is not None]

    def test_a_box_for_each_crate_inside_the_page(self):
        for text, root in zip(self.texts, self.roots):
            boxes = self.boxes(root)
            names = [g.find(SVG + "text").text for g in root.iter(SVG + "g") if g.find(SVG + "text") is not None]
            self.assertEqual(sorted(names), sorted(crate.name for crate in crates_of(text)))
            width, height = numbers(root, "width", "height")
            self.assertTrue(all(0 < x and 0 < y and x + w < width and y + h < height for x, y, w, h in boxes))

    def test_boxes_are_apart(self):
        for root in self.roots:
            boxes = self.boxes(root)
            for i, (x, y, w, h) in enumerate(boxes):
                self.assertFalse([other for other in boxes[:i] if other[1] == y and x < other[0] + other[2] + 9 and other[0] < x + w + 9])

    def test_no_line_runs_through_a_box(self):
        for root in self.roots:
            boxes = self.boxes(root)
            lines = [path.get("d") for path in root.iter(SVG + "path") if path.get("class")]
            for line in lines:
                inside = [(a, b) for a, b in points(line) for x, y, w, h in boxes if x < a < x + w and y + 1 < b < y + h - 1]
                self.assertEqual(inside, [], line)

    def test_an_arrow_head_for_each_crate_that_is_stood_on(self):
        for text, root in zip(self.texts, self.roots):
            ends = {tuple(path.get("d").split()[-2:]) for path in root.iter(SVG + "path") if path.get("marker-end")}
            self.assertEqual(len(ends), len({other for crate in crates_of(text) for other in crate.stands_on}))

    def test_lower_layers_stand_lower(self):
        for text, root in zip(self.texts, self.roots):
            heights = {g.find(SVG + "text").text: int(g.find(SVG + "rect").get("y")) for g in root.iter(SVG + "g") if g.find(SVG + "text") is not None}
            for crate in crates_of(text):
                self.assertTrue(all(heights[crate.name] < heights[other] for other in crate.stands_on))

    def test_nothing_from_outside(self):
        drawn = (TOP / "docs/crates.svg").read_text(encoding="utf-8")
        self.assertEqual(drawn.count("http"), 1)  # the name of SVG itself
        for word in ("<script", "@import", "@font-face", "href"):
            self.assertNotIn(word, drawn)


if __name__ == "__main__":
    unittest.main()
