# tools/run: what the system's faults do to a reading, many users at once, and its words.
import ctypes
import mmap
import os
import resource
import shutil
import signal
import subprocess
import tempfile
import threading
import time
import unittest
from pathlib import Path

from cases import PRINTED, SEVEN, TOP, needs, patch_program, sample, until
from looking.records import join

RUN = str(TOP / "tools" / "run")
WORDS = 6000
REEL = b"".join(SEVEN) + join(3, (0, 0, 0, 0, 4, 5, 6)) * WORDS  # about 120 KB of output: more than a pipe holds
LINES = "1 1 0\n2 2 0\n" + "".join(f"{i} 3 0 2\n+ 0 0\n+ 0 1\n" for i in range(3, WORDS + 3))
WHOLE = LINES.encode()


def run(stdin, stdout=subprocess.PIPE, **more):
    """Exit code, output and errors of the patch program, on a file, a descriptor or nothing."""
    done = subprocess.run(patch_program(), stdin=stdin, stdout=stdout, stderr=subprocess.PIPE, **more)
    return done.returncode, done.stdout, done.stderr.decode()


def reel():
    """The reel as a file to read."""
    file = tempfile.TemporaryFile()
    file.write(REEL)
    file.seek(0)
    return file


def slowly(fd, start):
    """All bytes of a descriptor, in small pieces, from `start` seconds on."""
    time.sleep(start)
    pieces = []
    while True:
        piece = os.read(fd, 5000)
        if not piece:
            return b"".join(pieces)
        pieces.append(piece)
        time.sleep(0.001)


@needs(patch_program, "target/bin/patch is not built or there is no rt, so no fault was tried")
class Faults(unittest.TestCase):
    """A list with a candidate missing must never look whole: each fault gives all of the output, or a front part, a status that is not 0 and a message."""

    def assert_told(self, code, output, said, words):
        self.assertEqual(code, 1, said)
        self.assertTrue(WHOLE.startswith(output))
        self.assertNotEqual(output, WHOLE)
        self.assertEqual(said.count("\n"), 1, said)
        self.assertIn(words, said)

    def test_full_device(self):
        with reel() as file, open("/dev/full", "wb") as full:
            code, _, said = run(file, full)
        self.assert_told(code, b"", said, "patch: cannot write to standard output: No space left on device")

    def test_full_disk(self):
        """A file system of 16 KB, in a name space of our own; where that may not be made, the next test stands for it."""
        script = 'mount -t tmpfs -o size=16k none "$0" && { "$@" > "$0/out"; code=$?; cat "$0/out"; exit $code; }'
        with tempfile.TemporaryDirectory() as room, reel() as file:
            for space in (["unshare", "-m"], ["unshare", "-rm"]):
                if subprocess.run([*space, "mount", "-t", "tmpfs", "none", room], stderr=subprocess.DEVNULL).returncode == 0:
                    command = [*space, "sh", "-c", script, room, *patch_program()]
                    done = subprocess.run(command, stdin=file, stdout=subprocess.PIPE, stderr=subprocess.PIPE)
                    self.assertGreater(len(done.stdout), 10000)
                    self.assert_told(done.returncode, done.stdout, done.stderr.decode(), "No space left on device")
                    return
        print("tools/tests: skipped, a small file system may not be mounted here")
        self.skipTest("no mount")

    def limited(self, handler):
        """The code, output and errors where a file may have 16 KB."""

        def limit():
            signal.signal(signal.SIGXFSZ, handler)
            resource.setrlimit(resource.RLIMIT_FSIZE, (16384, 16384))

        with reel() as file, tempfile.TemporaryFile() as output:
            code, _, said = run(file, output, preexec_fn=limit)
            output.seek(0)
            return code, output.read(), said

    def test_file_that_may_not_grow(self):
        self.assert_told(*self.limited(signal.SIG_IGN), "File too large")
        code, output, _ = self.limited(signal.SIG_DFL)
        self.assertNotEqual(code, 0)
        self.assertTrue(WHOLE.startswith(output))

    def test_output_that_is_not_ready(self):
        read, write = os.pipe()
        os.set_blocking(write, False)
        got = []
        reader = threading.Thread(target=lambda: got.append(slowly(read, 1.5)))
        reader.start()
        with reel() as file:
            code, _, said = run(file, write)
        os.close(write)
        reader.join()
        os.close(read)
        self.assertEqual((code, said), (0, ""))
        self.assertEqual(got[0], WHOLE)

    def test_input_that_is_not_ready(self):
        read, write = os.pipe()
        os.set_blocking(read, False)

        def feed():
            for at in range(0, len(REEL), 20000):
                time.sleep(0.2)
                os.write(write, REEL[at : at + 20000])
            os.close(write)

        writer = threading.Thread(target=feed)
        writer.start()
        self.assertEqual(run(read), (0, WHOLE, ""))
        writer.join()
        os.close(read)

    def test_directory(self):
        with tempfile.TemporaryDirectory() as room:
            fd = os.open(room, os.O_RDONLY)
            code, output, said = run(fd)
            os.close(fd)
        self.assert_told(code, output, said, "patch: cannot read standard input: Is a directory")

    def test_input_that_fails_inside_a_record(self):
        """Memory that ends in the middle of record 4, read as a file: that is no end of the input, so there is no refusal 10."""
        page = mmap.PAGESIZE
        libc = ctypes.CDLL(None, use_errno=True)
        libc.mmap.restype, libc.mmap.argtypes = ctypes.c_void_p, [ctypes.c_void_p, ctypes.c_size_t] + [ctypes.c_int] * 3 + [ctypes.c_long]
        libc.munmap.argtypes = [ctypes.c_void_p, ctypes.c_size_t]
        start = libc.mmap(None, 2 * page, mmap.PROT_READ | mmap.PROT_WRITE, mmap.MAP_PRIVATE | mmap.MAP_ANONYMOUS, -1, 0)
        libc.munmap(start + page, page)
        data = REEL[: 14 + 18 + 18 + 7]
        ctypes.memmove(start + page - len(data), data, len(data))
        with open("/proc/self/mem", "rb", buffering=0) as memory:
            memory.seek(start + page - len(data))
            code, output, said = run(memory)
        libc.munmap(start, page)
        self.assert_told(code, output, said, "patch: cannot read standard input: Input/output error")
        self.assertEqual(output.decode(), "1 1 0\n2 2 0\n3 3 0 2\n+ 0 0\n+ 0 1\n")

    def test_closed(self):
        for close, words in [("<&-", "standard input is closed"), (">&-", "standard output is closed")]:
            command = ["sh", "-c", f'"$0" patch {close}', RUN]
            done = subprocess.run(command, stdin=subprocess.DEVNULL, stdout=subprocess.PIPE, stderr=subprocess.PIPE)
            self.assertEqual((done.returncode, done.stdout), (1, b""))
            self.assertIn(words, done.stderr.decode())
        command = ["sh", "-c", '"$0" patch "$1" 2>&-', RUN, str(sample("clean"))]
        done = subprocess.run(command, stdout=subprocess.PIPE)
        self.assertEqual((done.returncode, done.stdout.decode()), (0, PRINTED["clean"]))

    def test_reader_that_goes(self):
        read, write = os.pipe()
        with reel() as file:
            process = subprocess.Popen(patch_program(), stdin=file, stdout=write, stderr=subprocess.PIPE)
            os.close(write)
            os.read(read, 10)
            os.close(read)
            process.communicate()
        self.assertNotEqual(process.returncode, 0)

    def test_a_signal_ends_the_program_too(self):
        """It waits for its input; when it is gone the pipe has no reader. A shell cannot trap what was ignored when it began, as SIGINT is in the background of a script."""
        for number in (signal.SIGHUP, signal.SIGINT, signal.SIGQUIT, signal.SIGTERM):
            process = subprocess.Popen(patch_program(), stdin=subprocess.PIPE, stdout=subprocess.PIPE, stderr=subprocess.PIPE,
                                       preexec_fn=lambda: signal.signal(number, signal.SIG_DFL))
            process.stdin.write(SEVEN[0])
            process.stdin.flush()
            self.assertEqual(process.stdout.readline(), b"1 1 0\n")
            process.send_signal(number)
            self.assertEqual(process.wait(60), 128 + number)
            with self.assertRaises(BrokenPipeError):
                os.write(process.stdin.fileno(), REEL)
            process.communicate()

    def test_other_programs(self):
        with open("/dev/full", "wb") as full:
            done = subprocess.run([RUN, "test_numbers"], stdout=full, stderr=subprocess.PIPE)
        self.assertEqual((done.returncode, done.stderr.count(b"test_numbers: cannot write to standard output")), (1, 1))


@needs(patch_program, "target/bin/patch is not built or there is no rt, so tools/run was not tried")
class Words(unittest.TestCase):
    def asked(self, *args, data=b""):
        done = subprocess.run([RUN, *map(str, args)], input=data, stdout=subprocess.PIPE, stderr=subprocess.PIPE)
        return done.returncode, done.stdout.decode(), done.stderr.decode()

    def test_file(self):
        self.assertEqual(self.asked("patch", sample("clean")), (0, PRINTED["clean"], ""))
        self.assertEqual(self.asked("patch", "-", data=sample("clean").read_bytes()), (0, PRINTED["clean"], ""))
        code, output, said = self.asked("patch", "/nowhere/at-all")
        self.assertEqual((code, output), (1, ""))
        self.assertIn("/nowhere/at-all: No such file", said)

    def test_by_a_link(self):
        with tempfile.TemporaryDirectory() as room:
            link = Path(room, "read")
            link.symlink_to(RUN)
            done = subprocess.run([link, "patch", sample("clean")], stdout=subprocess.PIPE)
        self.assertEqual((done.returncode, done.stdout.decode()), (0, PRINTED["clean"]))

    def test_usage(self):
        for words in (["-h"], ["--help"]):
            code, output, said = self.asked(*words)
            self.assertEqual((code, said), (0, ""))
            self.assertIn("patch test_calls test_numbers", output)
        for words in ([], ["patch", "a", "b"], ["-x"], ["nothing"]):
            code, output, said = self.asked(*words)
            self.assertEqual((code, output), (2, ""))
            self.assertTrue(said)


class OtherTrees(unittest.TestCase):
    """A tree with one program, and a kit that builds slowly and does not bear two builds at a time."""

    KIT = {
        "rt": 'case $1 in doc) echo "$KIT/START-HERE.md" ;; run) mkdir "$KIT/busy" || exit 1; echo built >> "$KIT/log"; sleep 0.5\n'
        'mkdir -p out; printf "#!/bin/sh\\ncat\\n" > out/patch; chmod +x out/patch; rmdir "$KIT/busy" ;; esac\n',
        "toolchain/lib/ld-linux-x86-64.so.2": 'shift 2; exec "$@"\n',
    }

    def setUp(self):
        room = tempfile.TemporaryDirectory()
        self.addCleanup(room.cleanup)
        self.top, self.kit = Path(room.name, "tree"), Path(room.name, "kit")
        (self.top / "crates/patch/src").mkdir(parents=True)
        (self.top / "crates/patch/src/main.rt").write_text("")
        (self.top / "crates.txt").write_text("patch:\n")
        (self.top / "tools").mkdir()
        for name in ("run", "build"):
            shutil.copy(TOP / "tools" / name, self.top / "tools" / name)
        for name, text in self.KIT.items():
            self.write(self.kit / name, text)

    def write(self, path, text):
        path.parent.mkdir(parents=True, exist_ok=True)
        path.write_text("#!/bin/sh\n" + text)
        path.chmod(0o755)

    def start(self, path):
        """A user; what is given comes out again, by the program `cat`."""
        pipes = {"stdin": subprocess.PIPE, "stdout": subprocess.PIPE, "stderr": subprocess.PIPE}
        env = {**os.environ, "KIT": str(self.kit), "PATH": path}
        return subprocess.Popen([self.top / "tools/run", "patch"], env=env, **pipes)

    def test_ten_at_once(self):
        """All find the program missing; one builds it, and it is built again only when a crate is newer."""
        for builds in (1, 2):
            users = [self.start(f"{self.kit}:{os.environ['PATH']}") for _ in range(10)]
            told = [user.communicate(b"all of it") for user in users]
            self.assertEqual([user.returncode for user in users], [0] * 10, told)
            self.assertEqual([output for output, _ in told], [b"all of it"] * 10)
            self.assertEqual((self.kit / "log").read_text(), "built\n" * builds)
            os.utime(self.top / "target/bin/patch", (1, 1))

    def test_a_change_of_the_file_does_not_reach_a_run(self):
        user = self.start(f"{self.kit}:{os.environ['PATH']}")
        until((self.kit / "log").exists)
        time.sleep(1)
        (self.top / "tools/run").write_text("nonsense\n" * 1000)
        self.assertEqual(user.communicate(b"all of it")[0], b"all of it")
        self.assertEqual(user.returncode, 0)

    def test_without_the_kit(self):
        """On the program that is there, or refused."""
        tools = self.kit.parent / "tools"
        tools.mkdir()
        for name in ("awk", "bash", "cat", "dirname", "env", "readlink", "sh"):
            (tools / name).symlink_to(shutil.which(name))
        user = self.start(str(tools))
        self.assertIn(b"no kit here", user.communicate()[1])
        self.assertEqual(user.returncode, 1)
        self.write(self.top / "target/bin/patch", "cat\n")
        user = self.start(str(tools))
        self.assertEqual(user.communicate(b"all of it"), (b"all of it", b""))
        self.assertEqual(user.returncode, 0)


if __name__ == "__main__":
    unittest.main()
