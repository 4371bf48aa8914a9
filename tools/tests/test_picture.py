# The picture: it is XML, its cells are those of the word and its candidates, and all of it is inside the page.
import random
import unittest
import xml.etree.ElementTree as ET

from cases import PRINTED, TOP, Fake, look, sample
from looking import answers, form, picture
from looking.code import patch_of

SVG = "{http://www.w3.org/2000/svg}"


def ask(printed, data):
    with Fake(printed) as fake:
        return answers.ask(fake.list, data)


def of_sample(name):
    return ask(PRINTED[name], sample(name).read_bytes())


def drawn(found, number=None, every=False):
    return picture.draw(picture.choose(found, number, every))


def cells(svg):
    """The looks of all marks in the order of the picture."""
    looks = [group.get("class") for group in ET.fromstring(svg).iter(SVG + "g")]
    return [look for look in looks if look in ("mark", "agree", "differ")]


def texts(svg):
    return [element.text for element in ET.fromstring(svg).iter(SVG + "text")]


class TwoReadings(unittest.TestCase):
    def setUp(self):
        self.svg = drawn(of_sample("two-readings"))

    def test_cells(self):
        found = cells(self.svg)
        self.assertEqual(found.count("agree"), 8)
        self.assertEqual(found[:7], ["mark"] * 7)
        self.assertEqual(found[7:14], ["agree"] * 4 + ["differ"] * 3)
        self.assertEqual(found[14:], ["agree"] + ["differ"] * 3 + ["agree"] * 3)

    def test_numbers_and_signs(self):
        found = texts(self.svg)
        self.assertEqual(found.count("="), 8 + 1)  # and one in the legend
        self.assertEqual(found.count("≠"), 6 + 1)
        self.assertEqual(found.count("4 of 7 agree"), 2)
        self.assertEqual(found.count("n−τ = 4 needed"), 2)
        for words in ("Record 3: a word with 2 readings", "p 7, n 7, k 2, s 1, τ 3", "0 0", "0 1"):
            self.assertIn(words, found)

    def test_title_and_description(self):
        root = ET.fromstring(self.svg)
        self.assertEqual(root.find(SVG + "title").text, "Record 3: a word with 2 readings")
        words = root.find(SVG + "desc").text
        self.assertIn("Reading 2, message 0 1: agrees in 4 of 7; differs at places 1 2 3.", words)

    def test_nothing_from_outside(self):
        self.assertEqual(self.svg.count("http"), 1)  # the name of SVG itself
        for word in ("<script", "@import", "@font-face", "href"):
            self.assertNotIn(word, self.svg)

    def test_kept_picture(self):
        self.assertEqual((TOP / "docs/two-readings.svg").read_text(encoding="utf-8"), self.svg)

    def test_by_command(self):
        with Fake(PRINTED["two-readings"]) as fake:
            done = look("picture", "--program", fake.command, sample("two-readings"))
        self.assertEqual(done, (0, self.svg.encode(), ""))


class OtherWords(unittest.TestCase):
    def test_all_agree(self):
        self.assertEqual(cells(drawn(of_sample("clean"))), ["mark"] * 7 + ["agree"] * 7)

    def test_no_reading(self):
        svg = drawn(of_sample("hopeless"))
        self.assertEqual(cells(svg), ["mark"] * 7)
        self.assertIn("No message agrees in at least 5 of 7 places.", texts(svg))

    def test_refused(self):
        found = texts(drawn(of_sample("every-refusal"), 16))
        self.assertIn("Record 16: a refused word", found)
        self.assertIn("Refused 6: a symbol not below p (7 at place 6, p is 7).", found)
        self.assertIn("no points held", texts(drawn(of_sample("every-refusal"), 1)))

    def test_empty_word(self):
        svg = drawn(ask("1 3 12\n", form.read(b"word\n")))
        self.assertEqual(cells(svg), [])
        self.assertIn("Refused 12: a word with no points held.", texts(svg))


class Choice(unittest.TestCase):
    def test_first_accepted(self):
        self.assertIn("Record 19: a word with 2 readings", texts(drawn(of_sample("every-refusal"))))

    def test_first_where_none_is_accepted(self):
        found = ask("1 3 12\n2 3 12\n", form.read(b"word 1\nword 2\n"))
        self.assertIn("Record 1: a refused word", texts(drawn(found)))

    def test_all(self):
        found = [words for words in texts(drawn(of_sample("every-refusal"), every=True)) if words.startswith("Record")]
        self.assertEqual([words.split(":")[0] for words in found], [f"Record {i}" for i in (1, 10, 15, 16, 19)])

    def test_no_such_word(self):
        with Fake(PRINTED["every-refusal"]) as fake:
            for number in ("2", "20", "21", "0"):
                code, output, said = look("picture", "--record", number, "--program", fake.command, sample("every-refusal"))
                self.assertEqual((code, output), (2, b""))
                self.assertIn(f"record {number} is not a word; the words are records 1, 10, 15, 16, 19", said)
        with Fake("") as fake:
            code, output, said = look("picture", "--program", fake.command)
            self.assertEqual((code, output), (2, b""))
            self.assertIn("no word in this file", said)


class Large(unittest.TestCase):
    """n = 64 and three-digit symbols, with candidates made up for the fake program."""

    def made(self, k, many):
        source = random.Random(k)
        points = list(range(64))
        messages = [[source.randrange(929) for _ in range(k)] for _ in range(many)]
        word = patch_of(929, points, messages[0])
        for place in source.sample(points, 20):
            word[place] = 0
        text = f"setting p 929 n 64 k {k} s 1 tau 50\npoints 0..63\nword {' '.join(map(str, word))}\n"
        listed = "".join("+ " + " ".join(map(str, message)) + "\n" for message in messages)
        return ask(f"1 1 0\n2 2 0\n3 3 0 {many}\n{listed}", form.read(text.encode()))

    def test_cells(self):
        for k, many in [(2, 24), (8, 3), (64, 1)]:
            found = self.made(k, many)
            looks = cells(drawn(found))
            self.assertEqual(looks.count("mark"), 64)
            self.assertEqual(looks.count("agree"), sum(c.count for c in found[-1].candidates))
            self.assertEqual(len(looks), 64 * (1 + many))

    def test_inside_the_page(self):
        pictures = [drawn(self.made(k, many)) for k, many in [(2, 24), (8, 3), (64, 1)]]
        pictures += [drawn(of_sample("every-refusal"), every=True)]
        pictures += [drawn(ask("1 3 12\n", form.read(b"word " + b"65535 " * 64)))]
        for svg in pictures:
            root = ET.fromstring(svg)
            width, height = int(root.get("width")), int(root.get("height"))
            drawn_rects = [rect for rect in root.iter(SVG + "rect") if rect.get("x")]  # the hatch's own have no place
            boxes = [tuple(int(rect.get(name)) for name in ("x", "y", "width", "height")) for rect in drawn_rects]
            self.assertTrue(all(x >= 0 and y >= 0 and x + w <= width and y + h <= height for x, y, w, h in boxes))
            self.assertEqual(len(set(box[:2] for box in boxes)), len(boxes))
            self.assertTrue(all(0 < int(text.get("y")) < height for text in root.iter(SVG + "text")))
            self.assertLess(width, 2000)


if __name__ == "__main__":
    unittest.main()
