# The lines in words: causes, agreement, wrong programs, and the real program where it is built.
import random
import unittest

from cases import PRINTED, Fake, look, needs, patch_program, sample
from looking import answers, causes, code, lines
from looking.code import Setting
from looking.form import read

TWO_READINGS = """\
1    setting p 7 n 7 k 2 s 1 tau 3
     1 1 0    accepted: W 4, ℓ 3, C 7, U 10, R 144

2    points  0 1 2 3 4 5 6
     2 2 0    accepted

3    word    0 0 0 0 4 5 6
     3 3 0 2  accepted: 2 messages agree in at least 4 of 7 places
     + 0 0    agrees in 4 of 7; differs at places 4 5 6
     + 0 1    agrees in 4 of 7; differs at places 1 2 3
"""

# A line of each record of every-refusal.patch, in order.
EVERY_REFUSAL = [
    "refused 12: a word with no points held",
    "refused 12: points with no setting held",
    "refused 1: p not a prime from 2 to 929 (p is 928)",
    "refused 2: n, k, s or τ outside its range (k 9 is not in 2 to 7)",
    "refused 3: U ≤ C: τ is too large; the largest accepted is 3 (W 3, ℓ 2, C 7, U 6, R 72)",
    "refused 4: ℓ > 24: τ is too small; the smallest accepted is 39 (W 26, ℓ 25, C 64, U 351, R 20956)",
    "refused 8: work under R (W 192, ℓ 6, C 640, U 693, R 56448; the program has 24000)",
    "refused 12: points with no setting held",
    "accepted: W 4, ℓ 3, C 7, U 10, R 144",
    "refused 12: a word with no points held",
    "refused 5: points or word not n long (6 here, n is 7)",
    "refused 6: a symbol not below p (7 at place 6, p is 7)",
    "refused 7: two equal points (5 more than once)",
    "accepted",
    "refused 5: points or word not n long (6 here, n is 7)",
    "refused 6: a symbol not below p (7 at place 6, p is 7)",
    "refused 11: another kind; the record is passed over",
    "refused 11: another kind; the record is passed over",
    "accepted: 2 messages agree in at least 4 of 7 places",
    "refused 10: the input ends inside a record",
]


def ask(printed, data):
    with Fake(printed) as fake:
        return answers.ask(fake.list, data)


class Shown(unittest.TestCase):
    def shown(self, name):
        return lines.show(ask(PRINTED[name], sample(name).read_bytes()))

    def test_two_readings(self):
        self.assertEqual(self.shown("two-readings"), TWO_READINGS)

    def test_by_command(self):
        with Fake(PRINTED["two-readings"]) as fake:
            done = look("lines", "--program", fake.command, sample("two-readings"))
        self.assertEqual(done, (0, TWO_READINGS.encode(), ""))

    def test_every_refusal(self):
        blocks = self.shown("every-refusal").split("\n\n")
        self.assertEqual(len(blocks), len(EVERY_REFUSAL))
        for block, words in zip(blocks, EVERY_REFUSAL):
            answer = block.splitlines()[1]
            self.assertTrue(answer.endswith("  " + words), answer)

    def test_one_and_none(self):
        self.assertIn("1 message agrees in at least 4 of 7 places", self.shown("clean"))
        self.assertIn("+ 3 2    agrees in all 7 places", self.shown("clean"))
        self.assertIn("no message agrees in at least 5 of 7 places", self.shown("hopeless"))

    def test_long_lines_have_their_words_below(self):
        message = " ".join(map(str, range(1, 13)))
        data = read(f"setting p 13 n 13 k 12 s 1 tau 0\npoints 0..12\nencode {message} lost 4\n".encode())
        shown = lines.show(ask(f"1 1 0\n2 2 0\n3 3 0 1\n+ {message}\n", data)).splitlines()
        self.assertEqual(shown[-2], f"     + {message}")
        self.assertEqual(shown[-1].strip(), "agrees in 12 of 13; differs at place 4; too few, 13 are needed")

    def test_long_damage_is_cut_short(self):
        shown = lines.show(ask("1 0 10\n", b"\xff" * 1000))
        self.assertEqual(shown.count("bytes ff"), 4)
        self.assertIn("# and 59 more such lines", shown)

    def test_empty_file(self):
        self.assertEqual(lines.show(ask("", b"")), "no record\n")


class Worked(unittest.TestCase):
    def test_patch_is_the_sum_of_powers(self):
        source = random.Random(22)
        for _ in range(500):
            p = source.choice([2, 3, 7, 929])
            points = [source.randrange(p) for _ in range(source.randrange(20))]
            message = [source.randrange(p) for _ in range(source.randrange(1, 12))]
            slow = [sum(f * x**i for i, f in enumerate(message)) % p for x in points]
            self.assertEqual(code.patch_of(p, points, message), slow)

    def test_derived_numbers_of_document_01(self):
        self.assertEqual(code.derive(Setting(7, 7, 2, 1, 3)), (4, 3, 7, 10, 144))
        self.assertEqual(code.derive(Setting(7, 7, 2, 3, 4))[2:4], (42, 45))
        self.assertEqual(code.derive(Setting(929, 32, 8, 4, 16))[2:4], (320, 325))
        self.assertEqual(code.derive(Setting(929, 64, 2, 1, 38)).l, 25)
        self.assertEqual(code.derive(Setting(929, 64, 32, 4, 16)).R, 56448)

    def test_accepted_taus(self):
        """They run from the smallest to the largest without a gap, for every n, k and s."""
        for n in range(2, 65):
            for k in range(2, n + 1):
                for s in range(1, 5):
                    taus = code.accepted_taus(Setting(929, n, k, s, 0))
                    self.assertEqual(taus, list(range(taus[0], taus[-1] + 1)) if taus else [])
        self.assertEqual(code.accepted_taus(Setting(929, 64, 2, 1, 0)), list(range(39, 54)))
        self.assertEqual(code.accepted_taus(Setting(929, 64, 2, 4, 0)), [])

    def test_which_tau_the_program_takes(self):
        for numbers, refusal, words in [
            ("n 64 k 2 s 4 tau 56", 3, "τ is too large; no τ is accepted with this n, k and s ("),
            ("n 64 k 32 s 4 tau 30", 3, "τ is too large; the largest accepted is 17, which needs more work than the program has (8) ("),
            ("n 64 k 3 s 2 tau 0", 4, "τ is too small; the smallest accepted is 43 ("),
            ("n 32 k 8 s 4 tau 17", 3, "τ is too large; the largest accepted is 16 ("),
        ]:
            shown = lines.show(ask(f"1 1 {refusal}\n", read(f"setting p 929 {numbers}\n".encode())))
            self.assertIn(words, shown)

    def test_ranges_of_document_01(self):
        inside = [(7, 2, 2, 1, 0), (7, 64, 64, 4, 63), (7, 7, 7, 1, 6)]
        self.assertEqual([causes.outside(Setting(*x)) for x in inside], [""] * 3)
        for given, words in [
            ((7, 1, 2, 1, 0), "n 1 is not in 2 to 64, k 2 is not in 2 to 1"),
            ((7, 65, 2, 1, 0), "n 65 is not in 2 to 64"),
            ((7, 7, 1, 1, 0), "k 1 is not in 2 to 7"),
            ((7, 7, 8, 1, 0), "k 8 is not in 2 to 7"),
            ((7, 7, 2, 0, 0), "s 0 is not in 1 to 4"),
            ((7, 7, 2, 5, 0), "s 5 is not in 1 to 4"),
            ((7, 7, 2, 1, 7), "τ 7 is not in 0 to 6"),
        ]:
            self.assertEqual(causes.outside(Setting(*given)), words)

    def test_what_is_held(self):
        first, second = b"setting p 7 n 7 k 2 s 1 tau 3\n", b"setting p 7 n 7 k 2 s 1 tau 2\n"
        text = first + b"points 0..6\npoints 0\nword 0\npoints 0..6\n" + second + b"word 0\n"
        found = ask("1 1 0\n2 2 0\n3 2 5\n4 3 12\n5 2 0\n6 1 0\n7 3 12\n", read(text))
        held = [(answer.setting and answer.setting.tau, answer.points and len(answer.points)) for answer in found]
        self.assertEqual(held, [(3, None), (3, 7), (3, None), (3, None), (3, 7), (2, None), (2, None)])

    def test_agreement(self):
        last = ask(PRINTED["two-readings"], sample("two-readings").read_bytes())[-1]
        self.assertEqual([c.patch for c in last.candidates], [(0,) * 7, tuple(range(7))])
        self.assertEqual([c.differs for c in last.candidates], [[4, 5, 6], [1, 2, 3]])


class WrongPrograms(unittest.TestCase):
    """A program that prints what cannot be an answer is named as the cause, and nothing is shown."""

    PRINTS = [
        ("1 1 0\n2 2 0\n", "no line for record 3"),
        ("1 1 0\n2 2 0\n3 3 0 0\n4 3 0 0\n", "'4 3 0 0' stands behind"),
        ("1 1 0\n3 2 0\n3 3 0 0\n", "'3 2 0' does not fit record 2 of kind 2"),
        ("1 1 0\n2 3 0\n3 3 0 0\n", "'2 3 0' does not fit record 2"),
        ("1 1 0\n2 2\n3 3 0 0\n", "'2 2' does not fit"),
        ("1 1 0\n2 2 10\n3 3 0 0\n", "'2 2 10' does not fit"),
        ("1 1 0\n2 2 0\n3 3 0\n", "'3 3 0' does not fit"),
        ("1 1 0\n2 2 0\n3 3 0 2\n+ 0 0\n", "record 3 has 1 of 2 candidates"),
        ("1 1 0\n2 2 0\n3 3 0 0\n+ 0 0\n", "'+ 0 0' stands behind"),
        ("1 1 0\n2 2 0\n+ 0 0\n3 3 0 0\n", "'+ 0 0' does not fit record 3"),
        ("1 1 0\n2 2 0\n3 3 5\n+ 0 0\n", "'+ 0 0' stands behind"),
        ("1 1 0\n2 2 0\n3 3 0 1\n+ 0 0 0\n", "not a candidate of k = 2 symbols"),
        ("1 1 0\n2 2 0\n3 3 0 1\n4 3 0 1\n", "not a candidate of k = 2 symbols"),
        ("1 1 0\n2 2 7\n3 3 0 0\n", "does not fit what it holds"),
        ("+ 0 0\n1 1 0\n2 2 0\n3 3 0 0\n", "'+ 0 0' does not fit record 1"),
        ("1 1 0\n\n2 2 0\n3 3 0 0\n", "'' does not fit record 2"),
        ("1 1 0\n2 2 0\n3 3 0 1\n+ 0 0", "the last line, '+ 0 0', is cut"),
        ("hello\n", "'hello' does not fit record 1"),
    ]

    def test_prints(self):
        data = sample("two-readings").read_bytes()
        for printed, reason in self.PRINTS:
            with self.subTest(printed):
                with self.assertRaises(answers.ProgramError) as caught:
                    ask(printed, data)
                self.assertIn(reason, str(caught.exception))

    def test_accepted_nonsense(self):
        for text in (b"setting p 0 n 1 k 0 s 1 tau 0\npoints 0\nword 0", b"setting p 7 n 7 k 2 s 1 tau 3\npoints 0..6\nword 0"):
            with self.assertRaises(answers.ProgramError):
                ask("1 1 0\n2 2 0\n3 3 0 0\n", read(text))

    def test_too_little_agreement_is_said(self):
        shown = lines.show(ask("1 1 0\n2 2 0\n3 3 0 1\n+ 1 0\n", sample("two-readings").read_bytes()))
        self.assertIn("agrees in 0 of 7; differs at places 0 1 2 3 4 5 6; too few, 4 are needed", shown)

    def test_text_in_place_of_a_patch_file_is_noticed(self):
        with Fake("1 0 10\n") as fake:
            _, output, said = look("lines", "--program", fake.command, data=b"setting p 7 n 7 k 2 s 1 tau 3\n")
            self.assertIn("refused 10", output.decode())
            self.assertIn("looks like text", said)
        with Fake(PRINTED["clean"]) as fake:
            _, _, said = look("lines", "--program", fake.command, sample("clean"))
            self.assertEqual(said, "")

    def test_exit_codes(self):
        reasons = {"false": "ended with 1", "/nowhere/at-all": "No such file", "echo hello": "does not fit record 1"}
        for program, reason in reasons.items():
            for way in ("lines", "picture"):
                code_, output, said = look(way, "--program", program, sample("clean"))
                self.assertEqual((code_, output), (1, b""))
                self.assertIn(reason, said)
                self.assertNotIn("Traceback", said)


@needs(patch_program, "target/bin/patch is not built or there is no rt, so the real program was not asked")
class RealProgram(unittest.TestCase):
    def test_samples(self):
        for name, printed in PRINTED.items():
            data = sample(name).read_bytes()
            with self.subTest(name):
                self.assertEqual(answers.run(patch_program(), data), printed)
        self.assertEqual(look("lines", sample("two-readings")), (0, TWO_READINGS.encode(), ""))


if __name__ == "__main__":
    unittest.main()
