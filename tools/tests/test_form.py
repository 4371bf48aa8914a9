# The text form: exact round trips for any bytes, what a person may write, and errors with their line.
import random
import struct
import tempfile
import unittest
from pathlib import Path

from cases import PATCHES, TOP, look, sample
from looking import form
from looking.records import join, split

SETTING = "setting p 7 n 7 k 2 s 1 tau 3\n"


def text_to_bytes(text):
    return form.read(text.encode())


def made_file(source):
    """Records of every kind one after another, and often some damage."""
    data = b""
    for _ in range(source.randrange(6)):
        kind = source.choice([0, 1, 2, 2, 3, 3, 4, 65535])
        many = 5 if kind == 1 else source.choice([0, 1, 7, 63, 64, source.randrange(65)])
        data += join(kind, [source.choice([source.randrange(10), source.randrange(65536)]) for _ in range(many)])
    damage = source.randrange(4)
    if damage == 1:
        data = data[: source.randrange(len(data) + 1)]
    elif damage == 2:
        data += source.choice([b"\x00\x00", b"\x01\x00\x02", b"\x84\x00", b"\x03\x00\x02\x00\x01", b"\x0a\x00\x01\x00"])
        data += source.randbytes(source.randrange(150))
    elif damage == 3 and data:
        place = source.randrange(len(data))
        data = data[:place] + source.randbytes(1) + data[place + 1 :]
    return data


class RoundTrip(unittest.TestCase):
    def back(self, data):
        self.assertEqual(text_to_bytes(form.write(data)), data)

    def test_kept_files(self):
        self.assertGreaterEqual(len(PATCHES), 7)
        for path in PATCHES:
            with self.subTest(path.name):
                self.back(path.read_bytes())

    def test_kept_files_by_command(self):
        for path in PATCHES:
            with self.subTest(path.name):
                code, text, _ = look("text", path)
                self.assertEqual(code, 0)
                self.assertEqual(look("patch", data=text), (0, path.read_bytes(), ""))

    def test_random_bytes(self):
        source = random.Random(20)
        for _ in range(3000):
            self.back(source.randbytes(source.randrange(300)))

    def test_made_files(self):
        source = random.Random(21)
        whole = flawed = 0
        for _ in range(5000):
            data = made_file(source)
            self.back(data)
            records = split(data)
            flawed += any(record.flaw for record in records)
            whole += sum(not record.flaw for record in records)
        self.assertGreater(flawed, 1000)
        self.assertGreater(whole, 5000)

    def test_every_length_and_cut(self):
        for length in range(140):
            for kind in range(5):
                data = struct.pack("<HH", length, kind) + bytes(length)
                for cut in (1, 2, 3, 4, length + 1, length + 2, len(data)):
                    self.back(data[:cut])

    def test_flaws_are_those_of_document_01(self):
        reasons = {
            b"\x0c": "the input ends inside a record",
            b"\x0c\x00\x01\x00": "the input ends inside a record",
            b"\x00\x00\x02\x00": "a length below 2 (0)",
            b"\x01\x00\x02\x00": "a length below 2 (1)",
            b"\x84\x00" + bytes(200): "a length above 130 (132)",
            b"\x83\x00" + bytes(200): "a length above 130 (131)",
            b"\x05\x00" + bytes(5): "an odd length (5)",
            b"\x0a\x00\x01\x00" + bytes(8): "a kind 1 length other than 12 (10)",
        }
        for data, reason in reasons.items():
            self.assertEqual([record.flaw for record in split(data)], [reason])
        for data in (b"", join(1, [0] * 5), join(2, [9] * 64), join(7, [])):
            self.assertEqual([record.flaw for record in split(data)], [None] * bool(data))


class Written(unittest.TestCase):
    def test_two_readings(self):
        text = "setting p 7 n 7 k 2 s 1 tau 3\npoints  0 1 2 3 4 5 6\nword    0 0 0 0 4 5 6\n"
        self.assertEqual(form.write(sample("two-readings").read_bytes()), text)

    def test_marks_stand_below_each_other(self):
        text = form.write(join(2, [0, 928, 5]) + join(3, [17, 0, 444]))
        self.assertEqual(text, "points    0 928   5\nword     17   0 444\n")

    def test_other_kinds_and_flaws(self):
        text = form.write(join(5, [1, 2, 3]) + join(0, []) + join(2, []) + b"\x03\x00\x02")
        stop = "# The program stops here with 10: an odd length (3).\nbytes 03 00 02\n"
        self.assertEqual(text, "record 5 1 2 3\nrecord 0\npoints\n" + stop)


class ByHand(unittest.TestCase):
    def test_sample(self):
        text = (TOP / "samples" / "two-readings.txt").read_bytes()
        self.assertEqual(form.read(text), sample("two-readings").read_bytes())

    def test_names_in_any_order(self):
        self.assertEqual(text_to_bytes("setting k 2 s 1 τ 3 p 7 n 7"), text_to_bytes(SETTING))
        self.assertEqual(text_to_bytes(SETTING), join(1, [7, 7, 2, 1, 3]))

    def test_ranges_lost_marks_comments_and_line_ends(self):
        text = "# head\r\n\r\n  points 0..3 9 5..5 # tail\r\nword ? 1 ?\r\nrecord 65535 7..8\r\nbytes 0A ff"
        wanted = join(2, [0, 1, 2, 3, 9, 5]) + join(3, [0, 1, 0]) + join(65535, [7, 8]) + b"\x0a\xff"
        self.assertEqual(text_to_bytes(text), wanted)

    def test_encode(self):
        held = SETTING + "points 0..6\n"
        for line, word in [
            ("encode 3 2", [3, 5, 0, 2, 4, 6, 1]),  # document 01's number
            ("encode 3 2 lost 4..6", [3, 5, 0, 2, 0, 0, 0]),
            ("encode 3 2 changed 2=5 0=9 lost 1", [9, 0, 5, 2, 4, 6, 1]),
        ]:
            self.assertEqual(text_to_bytes(held + line), text_to_bytes(held) + join(3, word))


class Errors(unittest.TestCase):
    WRONG = [
        ("wrod 1 2", 1, "not with 'wrod'"),
        ("\n# x\nword 1 x", 3, "'x' is not a number"),
        ("word -1", 1, "'-1' is not a number"),
        ("word ٣", 1, "is not a number"),
        ("word 65536", 1, "above 65535"),
        ("word " + "9" * 9000, 1, "above 65535"),
        ("points ?", 1, "'?' is not a number"),
        ("points 5..2", 1, "runs downwards"),
        ("points 0..", 1, "'' is not a number"),
        ("points 0..64", 1, "64 at most"),
        ("setting p 7 n 7 k 2 s 1", 1, "each name once"),
        ("setting p 7 n 7 k 2 s 1 tau", 1, "each name once"),
        ("setting p 7 n 7 k 2 s 1 s 1", 1, "each name once"),
        ("record", 1, "needs its kind"),
        ("record 1 7 7 2 1 3", 1, "written `setting`"),
        ("bytes 0c 0", 1, "'0' is not a byte"),
        ("bytes 0c00", 1, "'0c00' is not a byte"),
        ("encode 3 2", 1, "setting and points before it"),
        ("points 0..6\n" + SETTING + "encode 3 2", 3, "setting and points before it"),
        (SETTING + "points 0..6\nencode 3", 3, "k = 2 symbols below p = 7"),
        (SETTING + "points 0..6\nencode 3 7", 3, "k = 2 symbols below p = 7"),
        ("setting p 0 n 7 k 0 s 1 tau 3\npoints 0..6\nencode", 3, "below p = 0"),
        (SETTING + "points 0..6\nencode 3 2 lost 7", 3, "place 7 is outside"),
        (SETTING + "points 0..6\nencode 3 2 changed 7=1", 3, "place 7 is outside"),
        (SETTING + "points 0..6\nencode 3 2 changed 2", 3, "not like 2=5"),
    ]

    def test_line_and_reason(self):
        for text, line, reason in self.WRONG:
            with self.subTest(text[:60]):
                with self.assertRaises(form.TextError) as caught:
                    text_to_bytes(text)
                self.assertTrue(str(caught.exception).startswith(f"line {line}: "), str(caught.exception))
                self.assertIn(reason, str(caught.exception))

    def test_not_text(self):
        for data, line in [(b"word 1\n\xff\xfe", 2), (sample("clean").read_bytes(), 1)]:
            with self.assertRaises(form.TextError) as caught:
                form.read(data)
            self.assertIn(f"line {line}: this is no text", str(caught.exception))

    def test_command(self):
        code, output, said = look("patch", "-", data=b"word 1\nwrod 1\n")
        self.assertEqual((code, output), (2, b""))
        self.assertIn("standard input: line 2: ", said)
        self.assertNotIn("Traceback", said)

    def test_no_file_is_left_by_an_error(self):
        with tempfile.TemporaryDirectory() as room:
            given, made = Path(room, "case.txt"), Path(room, "case.patch")
            given.write_text("word x\n")
            code, _, said = look("patch", given, "-o", made)
            self.assertEqual((code, made.exists()), (2, False))
            self.assertIn("case.txt: line 1: ", said)
            given.write_text("word 1\n")
            self.assertEqual(look("patch", given, "-o", made), (0, b"", ""))
            self.assertEqual(made.read_bytes(), join(3, [1]))

    def test_wrong_command_lines(self):
        for args in [(), ("see",), ("text", "/nowhere/at-all"), ("picture", "--all", "--record", "1")]:
            code, output, said = look(*args)
            self.assertEqual((code, output), (2, b""))
            self.assertNotIn("Traceback", said)


if __name__ == "__main__":
    unittest.main()
