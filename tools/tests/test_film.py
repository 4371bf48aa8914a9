# Films: parts that can be read by themselves, outputs that are joined or refused, and both in one; with a program that is there.
import io
import os
import random
import re
import shutil
import signal
import subprocess
import sys
import tempfile
import unittest
from pathlib import Path
from unittest import mock

from cases import PATCHES, SEVEN, TOP, needs, program, sample, until
from filming import bar, joining, parts, running
from looking.answers import ProgramError
from looking.records import join, split, stream


def film(*args, data=b""):
    """tools/film as a person runs it: exit code, output, errors."""
    command = [sys.executable, str(TOP / "tools" / "film"), *map(str, args)]
    done = subprocess.run(command, input=data, stdout=subprocess.PIPE, stderr=subprocess.PIPE)
    return done.returncode, done.stdout, done.stderr.decode()


def printed(data):
    """What the program prints."""
    return subprocess.run(program(), input=data, stdout=subprocess.PIPE, check=True).stdout


def made_film(records, seed=1):
    """Words of Seven, with other records between them now and then."""
    source = random.Random(seed)
    others = [*SEVEN, join(1, (7, 7, 2, 1, 4)), join(1, (7, 7, 2, 3, 4)), join(2, range(6)), join(9, (1, 2)), join(3, (7,) * 7)]
    words = [join(3, [source.randrange(7) for _ in range(7)]) for _ in range(50)]
    return b"".join(SEVEN + [source.choice(words if source.random() < 0.9 else others) for _ in range(records - 2)])


class Stream(unittest.TestCase):
    def test_blocks_do_not_matter(self):
        for file in PATCHES:
            data = file.read_bytes()
            for size in (1, 2, 3, 131, 132, 133, 1000):
                blocks = [data[i : i + size] for i in range(0, len(data), size)]
                found, whole = list(stream(blocks)), split(data)
                self.assertEqual([(r.kind, r.flaw) for r in found], [(r.kind, r.flaw) for r in whole])
                self.assertEqual([r.data for r in found if not r.flaw], [r.data for r in whole if not r.flaw])


class Cut(unittest.TestCase):
    def repeated(self, *kinds):
        """The kinds that a part repeats after records of these kinds."""
        records = list(stream([b"".join(join(kind, (i,) * 5) for i, kind in enumerate(kinds))]))
        *_, last = parts.cut(records + records[-1:], len(records))
        return [(r.kind, r.numbers[0]) for r in last.repeated]

    def test_last_setting_and_last_points_since(self):
        self.assertEqual(self.repeated(3), [])
        self.assertEqual(self.repeated(1, 3), [(1, 0)])
        self.assertEqual(self.repeated(2, 1, 2, 3, 2, 5), [(1, 1), (2, 4)])
        self.assertEqual(self.repeated(1, 2, 1, 3), [(1, 2)])
        self.assertEqual(self.repeated(2, 3), [])

    def test_a_broken_record_ends_the_film(self):
        data = b"".join(SEVEN) + b"\xff\xff" + b"\0" * 100000
        *_, last = parts.cut(stream([data]), 1)
        self.assertEqual((last.first, [r.kind for r in last.all()]), (3, [1, 2, 0]))
        self.assertLess(len(last.data()), 200)


@needs(program, "there is no program to run films with")
class Parts(unittest.TestCase):
    def setUp(self):
        room = tempfile.TemporaryDirectory()
        self.addCleanup(room.cleanup)
        self.folder = Path(room.name, "parts")

    def split_and_run(self, data, count):
        code, output, said = film("split", "-", self.folder, count, data=data)
        self.assertEqual((code, output), (0, b""), said)
        for part in self.folder.glob("*.patch"):
            part.with_suffix(".out").write_bytes(printed(part.read_bytes()))
        return said

    def test_every_file_in_parts(self):
        for file in PATCHES:
            data = file.read_bytes()
            whole = printed(data)
            for count in (1, 2, 3, 5):
                with self.subTest(file=file.name, count=count):
                    self.split_and_run(data, count)
                    self.assertEqual(film("join", self.folder), (0, whole, ""))
                    shutil.rmtree(self.folder)

    def test_made_films(self):
        for seed in range(4):
            data = made_film(60, seed) + [b"", b"\x01", b"\x0d\x00", b"\x04\x00\x01\x00\x00\x00"][seed]
            self.split_and_run(data, 7)
            self.assertEqual(film("join", self.folder), (0, printed(data), ""))
            shutil.rmtree(self.folder)

    def test_no_record(self):
        self.assertIn("0 records, parts: 0", self.split_and_run(b"", 5))
        self.assertEqual(film("join", self.folder), (0, b"", ""))

    def test_an_old_folder_is_not_written_to(self):
        self.split_and_run(SEVEN[0], 1)
        code, _, said = film("split", sample("clean"), self.folder, 1)
        self.assertEqual(code, 1)
        self.assertIn("is not empty", said)

    def test_parallel(self):
        if shutil.which("parallel") is None:
            print("film: skipped, there is no GNU parallel here")
            self.skipTest("no parallel")
        data = made_film(40)
        film("split", "-", self.folder, 9, data=data)
        (line,) = re.findall(r"^    (find parts .*parallel .*)$", (TOP / "docs/FILM.md").read_text(encoding="utf-8"), re.M)
        run = self.folder.parent / "tools" / "run"
        run.parent.mkdir()
        run.write_text(f'#!/bin/sh\nshift\nexec {" ".join(program())} < "$1"\n')
        run.chmod(0o755)
        subprocess.run(line, shell=True, check=True, stderr=subprocess.DEVNULL, cwd=self.folder.parent)
        self.assertEqual(film("join", self.folder), (0, printed(data), ""))

    def refused(self, change, words):
        """The change makes join refuse with these words, before it writes anything."""
        whole = self.folder.with_name("whole")
        if not whole.exists():
            words_after = join(3, (0, 1, 2, 3, 4, 5, 6)), join(3, (2, 2, 2, 2, 2, 2, 2)) * 2
            self.split_and_run(sample("two-readings").read_bytes() + b"".join(words_after), 2)
            self.folder.rename(whole)
        shutil.copytree(whole, self.folder)
        change()
        code, output, said = film("join", self.folder)
        shutil.rmtree(self.folder)
        self.assertEqual((code, output), (1, b""))
        self.assertIn(words, said)
        self.assertNotIn("Traceback", said)

    def edit(self, name, change):
        path = self.folder / name
        return lambda: path.write_bytes(change(path.read_bytes()))

    def test_refused(self):
        lines = b"1 1 0\n2 2 0\n3 3 0 2\n+ 0 0\n+ 0 1\n4 3 0 1\n+ 0 1\n"
        self.split_and_run(sample("two-readings").read_bytes() + join(3, (0, 1, 2, 3, 4, 5, 6)), 2)
        self.assertEqual((self.folder / "000002.out").read_bytes(), lines)
        shutil.rmtree(self.folder)
        second = "000002.out"
        for name, change, words in [
            (second, lambda out: out[:-1], "000002.out: the last line, '+ 0 1', is cut"),
            (second, lambda out: out[:-4], "000002.out: the last line, '+ ', is cut"),
            (second, lambda out: out.replace(b"2 2 0\n", b""), "'3 3 0 2' does not fit record 2"),
            (second, lambda out: out.replace(b"+ 0 0\n", b""), "'4 3 0 1' is not a candidate of k = 2"),
            (second, lambda out: out[:-6], "the list of record 4 has 0 of 1 candidates"),
            (second, lambda out: out.replace(b"4 3 0 1\n+ 0 1\n", b""), "no line for record 4"),
            (second, lambda out: out + b"5 3 0 0\n", "'5 3 0 0' stands behind"),
            (second, lambda out: b"", "no line for record 1"),
            (second, lambda out: out.replace(b"2 2 0", b"2 3 0"), "'2 3 0' does not fit record 2 of kind 2"),
            (second, lambda out: out.replace(b"0", b"\xff"), "does not fit record 1"),
            (second, lambda out: out.replace(b"+ 0 1\n4", b"+ 1 1\n4"), "a candidate of record 3 does not fit its word"),
            ("000002.patch", lambda part: part[:-18], "000002.patch is not as it was written"),
            ("000002.patch", lambda part: part[:-1], "000002.patch is not as it was written"),
            ("parts.txt", lambda table: table[: table.index(b"end")], "is cut or changed"),
            ("parts.txt", lambda table: table[:-1], "is cut or changed"),
            ("parts.txt", lambda table: table[table.index(b"\n") + 1 :], "is cut or changed"),
            ("parts.txt", lambda table: re.sub(b"000002.*\n", b"", table), "is cut or changed"),
            ("parts.txt", lambda table: re.sub(b"000003.*\n", b"", table), "is cut or changed"),
        ]:
            with self.subTest(words):
                self.refused(self.edit(name, change), words)

    def test_missing(self):
        for name in ("000002.out", "000002.patch"):
            self.refused(lambda: (self.folder / name).unlink(), f"{name} is missing")
        self.refused((lambda: (self.folder / "parts.txt").unlink()), "has no parts.txt")

    def test_the_output_of_another_part(self):
        def change():
            shutil.copy(self.folder / "000002.out", self.folder / "000003.out")

        self.refused(change, "000003.out: a candidate of record 3 does not fit its word; is this another part's output?")

    def test_every_fault_is_named(self):
        def change():
            for name in ("000001.out", "000003.out"):
                (self.folder / name).unlink()

        self.refused(change, "000001.out is missing\nfilm: ")


@needs(program, "there is no program to run films with")
class Run(unittest.TestCase):
    def run_film(self, data, jobs):
        return film("run", "--program", " ".join(program()), "-", jobs, data=data)

    def test_same_bytes(self):
        data = made_film(9000)
        for jobs in (1, 2, 5):
            self.assertEqual(self.run_film(data, jobs), (0, printed(data), ""))

    def test_small_parts(self):
        data = made_film(300) + b"\x07"
        with mock.patch.object(running, "LEAST", 100), mock.patch.object(joining, "write_all") as poured:
            running.run([data], len(data), 3, program(), bar.Bar(None))
        self.assertEqual(b"".join(call.args[0] for call in poured.call_args_list), printed(data))

    def test_parts_are_shared_out(self):
        self.assertEqual(running.part_size(None, 2), 1 << 17)
        self.assertEqual(running.part_size(1 << 30, 2), 1 << 19)
        self.assertEqual(running.part_size(1000, 2), 1 << 15)
        self.assertEqual(running.part_size(1 << 20, 2), 1 << 16)

    def test_a_program_that_fails_is_told(self):
        for command, words in [
            ("false", "false ended with 1"),
            ("true", "records 1 to 3: there is no line for record 1"),
            ("echo hello", "'hello' does not fit record 1"),
            ("/nowhere/at-all", "/nowhere/at-all: No such file"),
        ]:
            code, output, said = film("run", "--program", command, sample("clean"), 2)
            self.assertEqual((code, output), (1, b""))
            self.assertIn(words, said)
            self.assertNotIn("Traceback", said)

    def test_the_output_before_a_fault_is_a_front_part(self):
        """A program that loses the last line of a part with a certain record."""
        words = join(3, range(7)) * 8000
        data = b"".join(SEVEN) + words + join(9, [int.from_bytes(b"FA", "little")]) + words
        whole = printed(data)
        with tempfile.TemporaryDirectory() as room:
            script = Path(room, "fails-late")
            keep = 'tee "$0.$$" | {} > "$0.$$.out"; if grep -aq FA "$0.$$"; then sed \'$d\' "$0.$$.out"; else cat "$0.$$.out"; fi'
            script.write_text("#!/bin/sh\n" + keep.format(" ".join(program())))
            script.chmod(0o755)
            code, output, said = film("run", "--program", script, "-", 2, data=data)
        self.assertEqual(code, 1)
        self.assertRegex(said, "film: records 7[0-9]* to [0-9]*: the list of record [0-9]* has 0 of 1 candidates")
        self.assertTrue(whole.startswith(output))
        self.assertTrue(len(whole) / 3 < len(output) < len(whole))

    def test_files(self):
        for name, words in [("/nowhere/film.patch", "No such file"), (str(TOP), "Is a directory")]:
            code, output, said = film("run", "--program", "true", name, 2)
            self.assertEqual((code, output), (1, b""))
            self.assertIn(f"{name}: {words}", said)
        command = ["sh", "-c", '"$0" run --program true - 2 <&-', str(TOP / "tools/film")]
        done = subprocess.run(command, stdout=subprocess.PIPE, stderr=subprocess.PIPE)
        self.assertEqual((done.returncode, done.stderr), (1, b"film: standard input: closed\n"))
        self.assertEqual(film("run", "--program", " ", "-", 2)[0], 2)

    def test_signals(self):
        """Programs and files of a run are gone when a signal ended it."""
        with tempfile.TemporaryDirectory() as room:
            script = Path(room, "waits")
            script.write_text('#!/bin/sh\n[ -s /dev/stdin ] || exit 0\necho $$ >> "$0.pids"\nexec sleep 60\n')
            script.chmod(0o755)
            command = [sys.executable, str(TOP / "tools/film"), "run", "--program", str(script), str(sample("clean")), "2"]
            running = Path(room, "waits.pids")
            for number in (signal.SIGHUP, signal.SIGINT, signal.SIGQUIT, signal.SIGTERM):
                running.write_text("")
                process = subprocess.Popen(command, stdout=subprocess.PIPE, env={**os.environ, "TMPDIR": room})
                pid = until(lambda: running.read_text().endswith("\n") and running.read_text().strip())
                process.send_signal(number)
                self.assertEqual(process.communicate()[0], b"")
                self.assertEqual(process.returncode, 128 + number)
                self.assertEqual(list(Path(room).glob("film-*")), [])
                self.assertFalse(Path("/proc", pid).exists())

    def test_full_device(self):
        command = [sys.executable, str(TOP / "tools/film"), "run", "--program", " ".join(program()), str(sample("clean")), "2"]
        with open("/dev/full", "wb") as full:
            done = subprocess.run(command, stdout=full, stderr=subprocess.PIPE)
        self.assertEqual(done.returncode, 1)
        self.assertIn(b"standard output: No space left", done.stderr)


class Bars(unittest.TestCase):
    def test_text(self):
        shown = bar.Bar(1000)
        shown.start -= 10
        shown.add(50, 250)
        self.assertRegex(shown.text(), r"^\[#{5} {15}\]  25% 50 records, 5/s, 0:00:10, 0:00:(29|30) left$")
        shown.add(150, 750)
        self.assertRegex(shown.text(), r"^\[#{20}\] 100% 200 records, (19|20)/s, 0:00:10$")
        unknown = bar.Bar(None)
        unknown.add(7, 100)
        self.assertTrue(unknown.text().startswith("7 records, "))

    def test_nothing_where_there_is_no_terminal(self):
        with mock.patch("sys.stderr", io.StringIO()) as said:
            shown = bar.Bar(10)
            shown.add(1, 1)
            shown.end()
        self.assertEqual(said.getvalue(), "")

    def test_span(self):
        self.assertEqual([bar.span(x) for x in (0, 59.9, 61, 3723)], ["0:00:00", "0:00:59", "0:01:01", "1:02:03"])


class Faults(unittest.TestCase):
    def test_no_line_of_another_part_is_taken(self):
        part = parts.Part(5, split(b"".join(SEVEN)), split(join(3, range(7))))
        with self.assertRaises(ProgramError):
            list(joining.numbered(part, io.StringIO("1 1 0\n2 2 0\n5 3 0 0\n")))
        self.assertEqual(list(joining.numbered(part, io.StringIO("1 1 0\n2 2 0\n3 3 0 0\n"))), ["5 3 0 0\n"])


if __name__ == "__main__":
    unittest.main()
