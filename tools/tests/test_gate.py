# The gate, .ci/run: with stand-ins for rt, cargo and the parts. Each part that fails makes it fail, parts run at the same time and none beside rt, and its last line is that of rt ci.
import shutil
import signal
import stat
import subprocess
import sys
import tempfile
import unittest
from pathlib import Path

from cases import TOP, until

LAST = "7 passed, 0 failed"
BUILT = "whitebeamish patch test_numbers test_calls"
COMMANDS = "bash sh cat dirname grep mktemp rm sleep tail tee".split()

# What each stand-in does: it says its name, also at the end of the file SAID; FAILS names the one that fails.
RT = f'echo "rt $*" | tee -a "$SAID"; [ "$FAILS" != "rt $1" ] && echo "{LAST}" || {{ echo "rt $1 failed"; exit 1; }}'
CARGO = 'echo "cargo $* in ${PWD##*/}" | tee -a "$SAID"; [ "$FAILS" != "cargo $1" ] || { echo "cargo $1 failed"; exit 1; }'
PART = 'echo "$0 $*" | tee -a "$SAID"; [ "$FAILS" != "$0" ]'
TESTS = """import os, unittest
class Test(unittest.TestCase):
    def test(self):
        print("tools/tests ran")
        self.assertNotEqual(os.environ["FAILS"], "tools/tests")
"""


class Gate(unittest.TestCase):
    def setUp(self):
        room = tempfile.TemporaryDirectory()
        self.addCleanup(room.cleanup)
        self.top = Path(room.name)
        for folder in (".ci", "bin", "second", "tools/tests", "bench"):
            (self.top / folder).mkdir(parents=True)
        shutil.copy(TOP / ".ci/run", self.top / ".ci/run")
        (self.top / "tools/tests/test_it.py").write_text(TESTS)
        for name in COMMANDS:
            (self.top / "bin" / name).symlink_to(shutil.which(name))
        (self.top / "bin/python3").symlink_to(sys.executable)
        self.script("bin/rt", RT)
        self.script("bin/cargo", CARGO)
        for part in ("tools/build", "tools/compare", "tools/link", "bench/test"):
            self.script(part, PART)

    def script(self, name, text):
        file = self.top / name
        file.write_text(f"#!/bin/sh\n{text}\n")
        file.chmod(file.stat().st_mode | stat.S_IXUSR)

    def command(self, fails=""):
        """What runs the gate in the stand-in's folder, with no command but those that are put there."""
        given = {"PATH": str(self.top / "bin"), "FAILS": fails, "SAID": str(self.top / "bin/said"), "SEED": "5", "TMPDIR": str(self.top)}
        return {"args": ["bash", str(self.top / ".ci/run")], "env": given, "stdout": subprocess.PIPE, "stderr": subprocess.STDOUT, "text": True}

    def said(self):
        """What the stand-ins said of themselves when they began, in that order."""
        return (self.top / "bin/said").read_text().splitlines()

    def run_gate(self, fails=""):
        """Exit code and lines."""
        (self.top / "bin/said").write_text("")
        done = subprocess.run(**self.command(fails))
        return done.returncode, done.stdout.splitlines()

    def assert_fails(self, fails, words):
        code, lines = self.run_gate(fails)
        self.assertNotEqual(code, 0, lines)
        self.assertNotEqual(lines[-1], LAST)
        self.assertIn(words, lines)
        return lines

    def test_all_is_well(self):
        code, lines = self.run_gate()
        self.assertEqual((code, lines[0], lines[-1]), (0, "rt ci", LAST), lines)
        shown = [line for line in lines if line.startswith(("gate:", "rt", "cargo", "tools/", "bench/"))]
        self.assertEqual(shown, [
            "rt ci",
            "cargo build --offline --release --quiet in second",
            "gate: the archive and the programs", "tools/build " + BUILT,
            "gate: second, its tests", "cargo test --offline --quiet in second",
            "gate: tools/compare", "tools/compare 5 145",
            "gate: tools/link", "tools/link --built 5 1850",
            "gate: tools/tests", "tools/tests ran",
            "gate: bench/test", "bench/test ",
        ])
        self.assertEqual(sorted(path.name for path in self.top.iterdir()), [".ci", "bench", "bin", "second", "tools"], "nothing is left")

    def test_each_part_that_fails_is_told(self):
        for part in ("tools/compare", "tools/link", "tools/tests", "bench/test"):
            with self.subTest(part):
                self.assert_fails(part, f"gate: FAILED: {part} ended with 1")
        self.assert_fails("cargo test", "gate: FAILED: second, its tests ended with 1")

    def test_rt_is_through_before_a_part_begins(self):
        """So that nothing but cargo runs beside a proof, and that only beside the archive's and the programs'."""
        self.script("bin/rt", f'echo "rt $* is through" >> "$SAID"; echo "{LAST}"')
        self.script("tools/build", 'sleep 1; echo "built: $*" >> "$SAID"')
        self.assertEqual(self.run_gate()[0], 0)
        said = self.said()
        self.assertEqual((said[0], len(said)), ("rt ci is through", 7), said)
        parts = [said.index(line) for line in said if line.startswith(("tools/", "bench/"))]
        self.assertEqual(len(parts), 3, said)
        self.assertLess(said.index("built: " + BUILT), min(parts))

    def test_a_failure_of_rt_or_of_the_build_ends_it(self):
        """After a failure of rt ci nothing has begun, after one of the archive or of the build no part that needs them."""
        lines = self.assert_fails("rt ci", "rt ci failed")
        self.assertEqual([line for line in lines if line.startswith("gate:")], [])
        self.assertEqual(self.said(), ["rt ci"])
        self.assert_fails("tools/build", "gate: FAILED: the archive and the programs ended with 1")
        self.assertEqual([line for line in self.said() if line.startswith(("tools/", "bench/"))], ["tools/build " + BUILT])
        lines = self.assert_fails("cargo build", "cargo build failed")
        self.assertEqual([line for line in lines if line.startswith("gate:")], [])
        self.assertEqual([line for line in self.said() if line.startswith(("tools/", "bench/")) and "build" not in line], [])

    def test_an_edit_that_could_not_be_tried_ends_it(self):
        """rt passes with it; the line is that of the kit."""
        self.script("bin/rt", f'echo "rt: ok: 42 crates; must-fail edits: 124 refused, 1 bad"; echo "{LAST}"')
        self.assert_fails("", "gate: FAILED: an edit could not be tried")
        self.script("bin/rt", f'echo "rt: ok: 42 crates; must-fail edits: 120 refused, 0 bad"; echo "{LAST}"')
        self.assertEqual(self.run_gate()[0], 0)

    def test_a_part_that_is_missing_or_killed_fails(self):
        self.script("tools/link", "kill -9 $$")
        self.assert_fails("", "gate: FAILED: tools/link ended with 137")
        (self.top / "tools/link").unlink()
        self.assert_fails("", "gate: FAILED: tools/link ended with 127")

    def test_parts_run_at_the_same_time_and_are_shown_in_order(self):
        """The first waits for the last, which would begin only behind it."""
        self.script("tools/compare", 'for i in 1 2 3 4 5 6 7 8 9 10; do [ -e begun ] && exit; sleep 1; done; exit 1')
        self.script("bench/test", ": > begun")
        code, lines = self.run_gate()
        self.assertEqual((code, lines[-1]), (0, LAST), lines)
        self.assertLess(lines.index("gate: tools/compare"), lines.index("gate: bench/test"))

    def test_without_cargo(self):
        (self.top / "bin/cargo").unlink()
        code, lines = self.run_gate()
        self.assertEqual((code, lines[-1]), (0, LAST))
        self.assertIn("second: skipped, there is no cargo here, so nothing was compared", lines)
        self.assertFalse([line for line in lines if line.startswith("tools/compare")])
        self.assert_fails("tools/link", "gate: FAILED: tools/link ended with 1")

    def test_a_signal_ends_the_parts_too(self):
        self.script("tools/link", "echo $$ > begun; exec sleep 60")
        with subprocess.Popen(**self.command()) as gate:
            begun = self.top / "begun"
            until(lambda: begun.exists() and begun.read_text().endswith("\n"))
            part = int(begun.read_text())
            gate.send_signal(signal.SIGTERM)
            gate.communicate()
            self.assertNotEqual(gate.returncode, 0)
        until(lambda: not Path(f"/proc/{part}").exists() or "Z" in Path(f"/proc/{part}/stat").read_text().split())


if __name__ == "__main__":
    unittest.main()
