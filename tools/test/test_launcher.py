"""Tests of the launcher `tcel`, in a small repository with an `rt` of their own: when it builds, what it says, and how it ends."""
import os
import pty
import re
import shutil
import signal
import subprocess
import tempfile
import time
import unittest
from pathlib import Path

ROOT = Path(__file__).resolve().parents[2]

# Lists its calls, and is slow or fails where a file asks for it; `run` makes a program that prints its words and ends with the status 3.
RT = """#!/bin/sh
echo "$(basename "$PWD") $*" >> "$CALLS/calls"
if [ -f "$CALLS/slow" ]; then sleep 60 & trap "kill $!; echo ended >> '$CALLS/calls'; exit 1" TERM; touch "$CALLS/started"; wait; fi
if [ -f "$CALLS/broken" ]; then echo 'fn low::add: not proved'; exit 1; fi
if [ "$1" = run ]; then mkdir -p out; printf '#!/bin/sh\\necho "$@"\\nexit 3\\n' > out/tcel_tool; chmod +x out/tcel_tool; fi
"""


class Launcher(unittest.TestCase):
    def setUp(self):
        folder = tempfile.TemporaryDirectory()
        self.addCleanup(folder.cleanup)
        self.home = Path(folder.name) / "a home"
        self.calls = Path(folder.name) / "calls"
        self.bin = Path(folder.name) / "bin"
        for crate in ("low", "other", "tcel_tool"):
            self.make(f"crates/{crate}/src/lib.rt", "", 1000)
        self.make("crates.txt", "# a comment\ntcel_tool: low kit\nother: low\nlow: kit\n", 1000)
        shutil.copy(ROOT / "tcel", self.home)
        for made in (self.calls, self.bin):
            made.mkdir()
        (self.bin / "rt").write_text(RT)
        (self.bin / "rt").chmod(0o755)
        self.environment = dict(os.environ, PATH=f"{self.bin}:{os.environ['PATH']}", CALLS=str(self.calls))

    def make(self, name, text, age):
        """A file of the repository, so many seconds old."""
        path = self.home / name
        path.parent.mkdir(parents=True, exist_ok=True)
        path.write_text(text)
        self.age(path, age)

    def start(self, *words, stderr=subprocess.PIPE):
        return subprocess.Popen([self.home / "tcel", *words], stdout=subprocess.PIPE, stderr=stderr, env=self.environment)

    def run_tcel(self, *words):
        process = self.start(*words)
        out, err = process.communicate(timeout=30)
        return process.returncode, out.decode(), err.decode().splitlines()

    def called(self):
        """The calls of `rt` so far, without the number of jobs; none afterwards."""
        path = self.calls / "calls"
        text = path.read_text() if path.exists() else ""
        path.unlink(missing_ok=True)
        return re.sub(r"--jobs [1-9]\d*", "--jobs N", text).splitlines()

    def age(self, path, seconds):
        past = time.time() - seconds
        os.utime(path, (past, past))

    def built(self):
        return ["low lib --jobs N", f"tcel_tool run --jobs N -- check {self.home}/examples/a.tcel"]

    def test_builds_once_and_hands_the_words_on(self):
        status, out, err = self.run_tcel("check", "a b")
        self.assertEqual((status, out), (3, "check a b\n"))
        self.assertEqual(self.called(), self.built())
        self.assertEqual(len(err), 2)
        self.assertEqual(err[0].split(";")[0], "tcel: no built program yet")
        self.assertIn("2 crates", err[0])
        self.assertRegex(err[1], r"^tcel: built in \d+:\d\d$")
        self.assertEqual(self.run_tcel("run"), (3, "run\n", []))
        self.assertEqual(self.called(), [])

    def test_builds_again_for_a_newer_source_alone(self):
        self.run_tcel()
        self.called()
        program = self.home / "crates/tcel_tool/out/tcel_tool"
        for source in ("crates/low/src/lib.rt", "crates/other/proofs/Lib.antt", "crates.txt"):
            self.age(program, 100)
            text = (self.home / source).read_text() if (self.home / source).exists() else ""
            self.make(source, text, 50)
            status, _, err = self.run_tcel()
            self.assertEqual((status, self.called()), (3, self.built()))
            self.assertEqual(err[0].split(";")[0], f"tcel: {source} is newer than the program")
            self.age(self.home / source, 1000)
        self.age(program, 100)
        for other in ("crates/low/out/made.rt", "crates/low/notes.txt"):
            self.make(other, "", 50)
        self.assertEqual(self.run_tcel("x"), (3, "x\n", []))
        self.assertEqual(self.called(), [])

    def test_a_failed_build_shows_its_last_lines(self):
        (self.calls / "broken").touch()
        status, out, err = self.run_tcel()
        self.assertEqual((status, out), (70, ""))
        self.assertEqual(self.called(), ["low lib --jobs N"])
        self.assertRegex(err[1], r"^tcel: the build failed at low after \d+:\d\d; the last lines of rt:$")
        self.assertEqual(err[2:], ["fn low::add: not proved"])

    def test_a_failed_build_is_not_passed_over(self):
        self.run_tcel()
        (self.calls / "broken").touch()
        self.make("crates/low/src/lib.rt", "", 0)
        self.age(self.home / "crates/tcel_tool/out/tcel_tool", 100)
        self.assertEqual(self.run_tcel()[:2], (70, ""))

    def test_signals_end_the_build(self):
        (self.calls / "slow").touch()
        for number in (signal.SIGINT, signal.SIGTERM):
            process = self.start()
            for _ in range(200):
                if (self.calls / "started").exists():
                    break
                time.sleep(0.05)
            (self.calls / "started").unlink()
            process.send_signal(number)
            process.communicate(timeout=20)
            self.assertEqual(process.returncode, -number)
            self.assertEqual(self.called(), ["low lib --jobs N", "ended"])

    def test_a_terminal_sees_each_crate(self):
        ours, theirs = pty.openpty()
        process = self.start(stderr=theirs)
        os.close(theirs)
        process.communicate(timeout=30)
        lines = os.read(ours, 65536).decode().split("\r\n")
        os.close(ours)
        self.assertEqual(len(lines), 5)
        self.assertRegex(lines[1], r"^tcel: low, 1 of 2, after 0:\d\d$")
        self.assertRegex(lines[2], r"^tcel: tcel_tool, 2 of 2, after 0:\d\d$")
        self.assertRegex(lines[3], r"^tcel: built in 0:\d\d$")


if __name__ == "__main__":
    unittest.main()
