"""Tests of the views: exact small outputs, dumps read back, pages opened where a browser is, and broken files."""
import json
import os
import re
import shutil
import subprocess
import tempfile
import unittest
import xml.etree.ElementTree as xml
from pathlib import Path

ROOT = Path(__file__).resolve().parents[2]
TOOLS = ROOT / "tools"
EXAMPLES = ROOT / "examples"
BROWSER = shutil.which("chromium") or shutil.which("google-chrome") or shutil.which("chromium-browser")


def run(tool, *words, stdin=None):
    """Status, standard output and standard error of a tool."""
    done = subprocess.run([TOOLS / tool, *map(str, words)], input=stdin, capture_output=True)
    return done.returncode, done.stdout.decode(), done.stderr.decode()


class WithFolder(unittest.TestCase):
    def setUp(self):
        self.folder = tempfile.TemporaryDirectory()
        self.addCleanup(self.folder.cleanup)

    def file(self, name, data):
        path = Path(self.folder.name) / name
        path.write_bytes(data if isinstance(data, bytes) else data.encode())
        return path


def entries(path):
    """The entries of a trace: time, task, frame, and the other words."""
    for line in Path(path).read_text().splitlines():
        time, task, frame, *what = line.split()
        yield int(time), task, int(frame), what


class StrictDump:
    """A value change dump, read by its standard's rules for what trace-vcd writes."""

    def __init__(self, text):
        head, body = text.split("$enddefinitions $end\n")
        self.signals, scope = {}, []
        for line in head.splitlines():
            words = line.split()
            if words[0] == "$scope":
                scope.append(words[2])
            elif words[0] == "$upscope":
                scope.pop()
            elif words[0] == "$var":
                kind, width, mark, name = words[1:5]
                assert words[5:] == ["$end"] and mark not in self.signals, line
                assert all(33 <= ord(letter) <= 126 for letter in mark), line
                self.signals[mark] = (".".join(scope[1:]), name, kind, int(width))
            else:
                assert words[0] in ("$comment", "$timescale") and words[-1] == "$end", line
        assert not scope
        self.changes, time, dumping = [], None, False
        for line in body.splitlines():
            if line[0] == "#":
                assert time is None or int(line[1:]) > time, line
                time = int(line[1:])
            elif line in ("$dumpvars", "$end"):
                dumping = line == "$dumpvars"
            else:
                value, mark = (line[0], line[1:]) if line[0] in "01" else line.split(" ")
                if not dumping:
                    self.changes.append((time, *self.signals[mark][:3], value))

    def of(self, task, name):
        return [(time, value) for time, scope, signal, _, value in self.changes if (scope, signal) == (task, name)]


def signed(bits):
    value = int(bits[1:], 2)
    return value - 2**64 if value >= 2**63 else value


class Dumps(WithFolder):
    def test_the_dump_of_one_frame(self):
        trace = self.file("t", "1 t 0 receive s -1\n3 t 0 send o 5\n8 t 0 first\n9 t 0 end n=1 b=true a=[0,7]\n")
        status, out, err = run("trace-vcd", trace)
        self.assertEqual((status, err), (0, ""))
        self.assertEqual(
            out.split("$dumpvars\n")[1].split("$end\n", 1)[1],
            "#1\nb0 !\nb" + "1" * 64 + ' "\nr-1 #\n1$\n#3\nb101 %\nr5 &\n1\'\n#8\n1(\n#9\nb1 *\nr1 +\nb1 ,\nb0 -\nr0 .\nb111 /\nr7 0\n1)\n',
        )

    def test_each_entry_is_read_back(self):
        for name in ("a", "pair", "control_unit"):
            path = EXAMPLES / f"{name}.trace"
            status, out, err = run("trace-vcd", path)
            self.assertEqual((status, err), (0, ""))
            dump = StrictDump(out)
            for time, task, frame, what in entries(path):
                at = lambda signal: [value for when, value in dump.of(task, signal) if when <= time][-1]
                self.assertEqual(int(at("$frame")[1:], 2), frame)
                if what[0] in ("receive", "send"):
                    self.assertIn((time, "1"), dump.of(task, f"{what[1]}${what[0]}"))
                    self.assertEqual(signed(at(what[1])), int(what[2]))
                    self.assertEqual(float(at(what[1] + "$real")[1:]), float(what[2]))
                else:
                    self.assertIn((time, "1"), dump.of(task, "$" + what[0]))
                    for word in what[1:]:
                        state, value = word.split("=")
                        self.assertEqual(signed(at(state)), int(value))

    def test_values_at_the_edges(self):
        trace = self.file("t", "1 t 0 send o -9223372036854775808\n2 t 0 send o 9223372036854775807\n")
        dump = StrictDump(run("trace-vcd", trace)[1])
        self.assertEqual([signed(value) for _, value in dump.of("t", "o")], [-(2**63), 2**63 - 1])

    @unittest.skipUnless(shutil.which("vcd2fst"), "no vcd2fst")
    def test_another_reader_takes_the_dump(self):
        dump = self.file("t.vcd", run("trace-vcd", EXAMPLES / "pair.trace")[1])
        subprocess.run(["vcd2fst", dump, dump.with_suffix(".fst")], check=True, capture_output=True)


class Figures(WithFolder):
    def bars(self, text):
        return [
            (rect.find("{*}title").text, float(rect.get("x")), float(rect.get("width")))
            for rect in xml.fromstring(text).iter("{http://www.w3.org/2000/svg}rect")
            if rect.find("{*}title") is not None
        ]

    def test_stretches_are_bars(self):
        timeline = self.file("t", "0 2 a\n2 3 b\n3 5 a\n5 6 idle\n")
        status, out, err = run("schedule-svg", timeline, "--width", "656")
        self.assertEqual((status, err), (0, ""))
        self.assertEqual(
            self.bars(out),
            [("a from 0 to 2", 44, 200), ("a from 3 to 5", 344, 200), ("b from 2 to 3", 244, 100), ("idle from 5 to 6", 544, 100)],
        )

    def test_frames_are_bars(self):
        status, out, _ = run("schedule-svg", EXAMPLES / "pair.trace")
        titles = [title for title, _, _ in self.bars(out)]
        self.assertEqual(status, 0)
        self.assertIn("lo frame 0: first part from 27 to 56", titles)
        self.assertIn("lo frame 0: from 56 to 114", titles)

    def test_a_part_is_shown(self):
        out = run("schedule-svg", EXAMPLES / "pair.timeline", "--from", "100", "--to", "200")[1]
        self.assertEqual([title for title, _, _ in self.bars(out)], ["hi from 140 to 166", "lo from 96 to 140", "lo from 166 to 210"])

    def test_times_in_the_wrong_order_are_faulty_words(self):
        self.assertEqual(run("schedule-svg", EXAMPLES / "pair.timeline", "--from", "5", "--to", "5")[0], 2)


class Pages(WithFolder):
    def data(self, out):
        return json.loads(re.search(r'<script id="meta" type="application/json">(.*?)</script>', out, re.S).group(1))

    def test_the_page_tells_tasks_and_bounds(self):
        status, out, err = run("trace-page", EXAMPLES / "pair.trace", "--program", EXAMPLES / "pair.tcel", "--timeline", EXAMPLES / "pair.timeline")
        self.assertEqual((status, err), (0, ""))
        self.assertIn("72 entries of 2 tasks up to time 694.", out)
        self.assertIn("<tr><td>lo</td><td>100</td><td>100</td><td>7</td><td>7</td><td>28</td></tr>", out)
        self.assertEqual(self.data(out)["bounds"], {"hi": [70, 70], "lo": [100, 100]})
        self.assertEqual(self.data(out)["timeline"][0], [0, 26, 0])
        self.assertNotRegex(out, r"(src|href)=|https?://")

    @unittest.skipUnless(BROWSER, "no browser")
    def test_a_browser_draws_the_page(self):
        for name in ("a", "pair", "control_unit"):
            trace = EXAMPLES / f"{name}.trace"
            page = self.file(f"{name}.html", run("trace-page", trace, "--program", EXAMPLES / f"{name}.tcel")[1])
            words = [BROWSER, "--headless", "--no-sandbox", "--disable-gpu", "--dump-dom", page.as_uri()]
            dom = subprocess.run(words, capture_output=True, timeout=60).stdout.decode()
            self.assertIn(f'<body data-entries="{len(list(entries(trace)))}">', dom)
            self.assertRegex(dom, r'aria-label="[a-z_]+\.trace: ticks 0 to [0-9]+, task [a-z]+ chosen"')


class BrokenFiles(WithFolder):
    TOOLS = ("trace-page", "trace-vcd")

    def test_a_faulty_line_is_told_by_its_number(self):
        good = "1 t 0 first\n"
        for line in (
            "x", "", " ", "01 t 0 first", "1 t 00 first", "1 task 0 first", "1 t 0 firs", "1 t 0 first\r", "1  t 0 first", "1 t 0 send o", "1 t 0 send o +1",
            "1 t 0 send o -0", "1 t 0 send o 9223372036854775808", "1 t 0 end n", "1 t 0 end n=[]", "1 t 0 receive 9s 1", "0 t 0 first", "9007199254740992 t 0 end",
            "1 " + "t" * 33 + " 0 first",
        ):
            path = self.file("t", good + line + "\n" + good)
            for tool in self.TOOLS:
                status, out, err = run(tool, path)
                self.assertEqual((status, out), (1, ""), line)
                self.assertTrue(err.startswith(f"{tool}: {path}:2: ") and err.count("\n") == 1, err)

    def test_a_cut_file_is_told(self):
        path = self.file("t", "1 t 0 first\n2 t 0 en")
        for tool in (*self.TOOLS, "schedule-svg"):
            self.assertEqual(run(tool, path), (1, "", f"{tool}: {path}:2: the last line has no line feed\n"))

    def test_nothing_is_a_trace_of_no_entries(self):
        path = self.file("t", "")
        for tool in (*self.TOOLS, "schedule-svg"):
            self.assertEqual(run(tool, path)[0], 0)

    def test_a_file_that_is_missing_is_told(self):
        for tool in (*self.TOOLS, "schedule-svg"):
            status, out, err = run(tool, "no/such/file")
            self.assertEqual((status, out, err), (1, "", f"{tool}: no/such/file: No such file or directory\n"))

    def test_a_timeline_with_a_gap_is_told(self):
        path = self.file("t", "0 2 a\n3 4 a\n")
        self.assertEqual(run("schedule-svg", path)[2], f"schedule-svg: {path}:2: a stretch begins at 3 where the one before ended at 2\n")

    def test_what_is_no_program_is_told(self):
        path = self.file("p", "task t priority 1 { }")
        status, _, err = run("trace-page", EXAMPLES / "a.trace", "--program", path)
        self.assertEqual((status, err), (1, f"trace-page: {path}: no program: task t has no period\n"))

    def test_longest_names_and_many_lines(self):
        name = "t" * 32
        path = self.file("t", "".join(f"{time} {name} {time} send {name} {time}\n" for time in range(1, 50001)))
        for tool in self.TOOLS:
            status, out, err = run(tool, path)
            self.assertEqual((status, err), (0, ""))
            self.assertIn(name, out)

    def test_a_reader_that_goes_away_is_no_crash(self):
        for tool in self.TOOLS:
            line = f"'{TOOLS / tool}' '{EXAMPLES / 'control_unit.trace'}' | head -n 1"
            self.assertNotIn("Traceback", subprocess.run(["sh", "-c", line], capture_output=True).stderr.decode())

    def test_standard_input_is_read(self):
        data = (EXAMPLES / "a.trace").read_bytes()
        self.assertEqual(run("trace-vcd", "-", stdin=data), run("trace-vcd", EXAMPLES / "a.trace"))


class Editors(unittest.TestCase):
    GRAMMAR = json.loads((TOOLS / "editor/vscode/syntaxes/tcel.tmLanguage.json").read_text())
    WORDS = re.search(r"The reserved words are no names: `([a-z ]+)`", (ROOT / "docs/language.md").read_text()).group(1).split()

    def scopes(self, text):
        """Each token of a text with the scope that the grammar gives it."""
        patterns = [(pattern["name"], re.compile(pattern["match"], re.M)) for pattern in self.GRAMMAR["patterns"]]
        place, found = 0, []
        while place < len(text):
            matches = [(match.start(), order, name, match.group()) for order, (name, p) in enumerate(patterns) if (match := p.search(text, place))]
            if not matches:
                break
            start, _, name, token = min(matches)
            found.append((token, name.split(".")[0]))
            place = start + len(token)
        return found

    def test_reserved_words_are_no_variables(self):
        for word in self.WORDS:
            self.assertEqual([token for token, _ in self.scopes(word)], [word])
            self.assertNotEqual(self.scopes(word)[0][1], "variable", word)
            self.assertRegex((TOOLS / "editor/vim/syntax/tcel.vim").read_text(), rf"syntax keyword .*\b{word}\b")
        self.assertEqual(self.scopes("states ends2 _do"), [("states", "variable"), ("ends2", "variable"), ("_do", "variable")])

    def test_the_examples_are_covered(self):
        for path in EXAMPLES.glob("*.tcel"):
            text = path.read_text()
            tokens = self.scopes(text)
            self.assertEqual("".join(token for token, _ in tokens), re.sub(r"\s", "", text))
            for token, scope in tokens:
                kind = "constant" if token.isdigit() else "variable" if re.fullmatch(r"\w+", token) and token not in self.WORDS else None
                if kind:
                    self.assertEqual(scope, kind, token)

    def test_signs_are_the_longest(self):
        self.assertEqual([token for token, _ in self.scopes("a:=b<=-c//<=")], ["a", ":=", "b", "<=", "-", "c", "//<="])

    @unittest.skipUnless(shutil.which("vim") or shutil.which("vim.tiny"), "no vim")
    def test_vim_reads_its_file(self):
        vim = shutil.which("vim") or shutil.which("vim.tiny")
        words = [vim, "-e", "-s", "-u", "NONE", "-c", f"source {TOOLS / 'editor/vim/syntax/tcel.vim'}", "-c", "qall!"]
        done = subprocess.run(words, capture_output=True, timeout=20, env={**os.environ, "TERM": "dumb"})
        self.assertNotIn(b"Error", done.stdout + done.stderr)


class Help(unittest.TestCase):
    def test_each_tool_tells_how_it_is_used(self):
        for tool in ("trace-page", "trace-vcd", "schedule-svg"):
            status, out, err = run(tool, "--help")
            self.assertEqual((status, err), (0, ""))
            self.assertIn(f"usage: {tool}", out)
            self.assertEqual(run(tool)[0], 2)


if __name__ == "__main__":
    unittest.main()
