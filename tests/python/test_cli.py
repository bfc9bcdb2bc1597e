"""The command: its words, statuses, files that are written, progress, and one pattern or two."""
from __future__ import annotations

import io
import json
import os
import signal
import subprocess
import sys
import time
import unittest
from dataclasses import replace
from pathlib import Path
from typing import Any, Tuple
from unittest import mock

from engine_support import TOP, folder, missing
from relint import cli
from relint.base.model import ACCEPTED, Narrowed, NotLooked
from relint.base.safe import Scratch, Unwritten
from relint.options import OptionsError
from screens_support import SUMMARY, cubic, exponential, pipeline, rlt

NO_SERVICE = missing("relint", "relint-ask")


class Words(unittest.TestCase):
    """Words to functions, and statuses."""

    def test_help_and_version(self) -> None:
        self.assertEqual(len(rlt("--help").out.splitlines()), 10)
        self.assertEqual(rlt("-h"), rlt("--help"))
        for word in ("check", "fix", "accept", "pattern", "compare", "explain", "confirm", "record", "server"):
            ran = rlt(word, "--help")
            self.assertEqual((ran.status, ran.err, ran.out.split(":")[0].split()[1]), (0, "", word))
        self.assertEqual(rlt("src", "--help"), rlt("check", "--help"))
        self.assertRegex(rlt("--version").out, r"^rlt [0-9.]+\n$")
        with pipeline([], status=0) as seen:
            rlt("--", "--help")
        self.assertEqual(seen[0].paths, ("--help",))

    def test_check(self) -> None:
        with folder({"a.py": ""}), pipeline([cubic(), exponential()]) as seen:
            ran = rlt("--max-degree=3", "a.py")
        self.assertEqual((ran.status, ran.err, seen[0].max_degree, seen[0].word), (1, "", 3, "check"))
        self.assertTrue(ran.out.startswith("app.py:2:19: RLT100 exponential: a text"))
        with folder({}), pipeline([], status=0):
            self.assertEqual(rlt("--format", "json").status, 0)

    def test_a_signal_ends_it_and_what_it_made(self) -> None:
        made = []

        def stopped(_: object) -> int:
            with Scratch() as place:
                made.append(place)
                os.kill(os.getpid(), signal.SIGTERM)
                time.sleep(5)
            return 0
        before = signal.getsignal(signal.SIGTERM)
        with mock.patch.object(cli, "_done", stopped):
            self.assertEqual(rlt().status, 143)
        self.assertFalse(os.path.exists(made[0]))
        self.assertEqual(signal.getsignal(signal.SIGTERM), before)

    def test_the_commit_is_one_of_the_repository_of_the_paths(self) -> None:
        seen = []

        class Commit:
            data = None

            def __init__(self, _: str, folder: str, until: float) -> None:
                seen.append(os.path.basename(folder))

            def close(self) -> None:
                pass
        cases = (("b/a.py",), "b"), (("b", "b/c"), "b"), (("fix", "b/c/d.py"), "c"), (("--stdin-filename", "b/x.py", "-"), "b")
        for words, wanted in cases:
            with folder({"b/a.py": "", "b/c/d.py": ""}), mock.patch("relint.git.Earlier", Commit):
                cli._options([*words, "--baseline-commit", "HEAD"])
            self.assertEqual(seen.pop(), wanted)

    def test_statuses_of_errors(self) -> None:
        class ProgramError(Exception):
            pass
        cases: Any = [
            (OptionsError("no such x\n\x1b[2J", 3), 3, "rlt: no such x\\n\\x1b[2J\n"),
            (ProgramError("gone"), 2, "rlt: gone\n"),
            (MemoryError(), 5, "rlt: out of memory\n"), (KeyboardInterrupt(), 130, ""), (Unwritten(""), 4, ""),
            (Unwritten("it is full"), 4, "rlt: standard output can't be written: it is full\n"),
        ]
        for error, status, said in cases:
            with mock.patch.object(cli, "_done", side_effect=error):
                self.assertEqual(rlt()[::2], (status, said))
        with mock.patch.object(cli, "_done", side_effect=ValueError("a defect")), self.assertRaises(ValueError):
            rlt()

    def test_mistakes_are_one_line(self) -> None:
        for words in (["--nosuch"], ["fix", "--strict"], ["explain", "nosuch\n"], ["accept", "x"], ["--config", "/nosuch"]):
            with folder({}):
                ran = rlt(*words)
            self.assertIn(ran.status, (2, 3))
            self.assertEqual((ran.out, ran.err.count("\n")), ("", 1))

    def test_files_that_are_written(self) -> None:
        with folder({"there": ""}), pipeline([cubic()]):
            os.symlink("there", "link.sarif")
            ran = rlt("--write=sarif=a.sarif", "--write=json=b.json", "--write=gitlab=there", "--color=always")
            self.assertEqual(ran.status, 1)
            self.assertIn("\x1b[", ran.out)
            found = [json.loads(Path(it).read_text(encoding="utf-8")) for it in ("a.sarif", "b.json", "there")]
            self.assertEqual((found[0]["version"], found[1]["version"], len(found[2])), ("2.1.0", 2, 1))
            ran = rlt("--write=sarif=link.sarif", "--write=terminal=nosuch/x")
            self.assertEqual(ran.status, 4)
            self.assertEqual(ran.err, "rlt: link.sarif can't be written: it is a link\n"
                                      "rlt: nosuch/x can't be written: it isn't there\n")
            self.assertEqual(len(json.loads(Path("there").read_text(encoding="utf-8"))), 1)

    def test_each_word_says_what_was_left_out(self) -> None:
        summary = replace(SUMMARY, not_looked=(NotLooked("b.py", "it isn't UTF-8"),),
                          narrowed=(Narrowed("p.toml", "exclude"),))
        with folder({"app.py": ""}):
            for words in (["fix"], ["fix", "--diff"], ["accept", "--all", "--reason=x"], ["accept", "--prune"]):
                with pipeline([cubic(state=ACCEPTED)], summary, status=3):
                    ran = rlt(*words)
                self.assertEqual(ran.status, 3)
                self.assertIn("rlt: not looked at: 1 (b.py: it isn't UTF-8)\n", ran.err)
                self.assertIn("rlt: configuration: p.toml (exclude)\n", ran.err)

    def test_colours(self) -> None:
        cases: Any = [
            ("auto", True, {}, "always"), ("auto", False, {}, "never"), ("auto", True, {"NO_COLOR": "1"}, "never"),
            ("auto", True, {"TERM": "dumb"}, "never"), ("always", False, {"NO_COLOR": "1"}, "always"),
            ("never", True, {}, "never")]
        for choice, terminal, environment, expected in cases:
            out = io.StringIO()
            setattr(out, "isatty", lambda terminal=terminal: terminal)
            clean = {"NO_COLOR": "", "TERM": "xterm", **environment}
            with mock.patch.object(sys, "stdout", out), mock.patch.dict(os.environ, clean):
                self.assertEqual(cli._colour(choice), expected)


class Progress(unittest.TestCase):
    """The line on a terminal."""

    def shown(self, terminal: bool, quiet: bool = False, waits: bool = True) -> str:
        out = io.StringIO()
        setattr(out, "isatty", lambda: terminal)
        now = [100.0]
        with mock.patch.object(sys, "stderr", out), mock.patch.object(time, "monotonic", lambda: now[0]), \
                mock.patch.dict(os.environ, {"TERM": "xterm"}):
            progress = cli.Progress(quiet)
            progress(1, 5000, 0)
            now[0] += 1.5 if waits else 0.5
            progress(2, 5000, 1)
            progress(3, 5000, 1)
            progress.close()
        return out.getvalue()

    def test_after_a_second_on_a_terminal(self) -> None:
        self.assertEqual(self.shown(True), "\r\x1b[K2 of 5,000 files, 1 findings\r\x1b[K")
        self.assertEqual([self.shown(False), self.shown(True, quiet=True), self.shown(True, waits=False)], ["", "", ""])


class Started(unittest.TestCase):
    """As a command of its own."""

    def run_it(self, *words: str, **more: Any) -> "subprocess.CompletedProcess[bytes]":
        environment = {**os.environ, "PYTHONPATH": str(TOP / "python")}
        return subprocess.run([sys.executable, "-P" if sys.version_info >= (3, 11) else "-B", "-m", "relint", *words],
                              env=environment, stderr=subprocess.PIPE, timeout=60, **more)

    def test_output_that_fails(self) -> None:
        if not os.path.exists("/dev/full"):
            self.skipTest("there is no /dev/full")
        with open("/dev/full", "wb") as full:
            ran = self.run_it("--help", stdout=full)
        self.assertEqual((ran.returncode, ran.stderr),
                         (4, b"rlt: standard output can't be written: No space left on device\n"))
        reader, writer = os.pipe()
        os.close(reader)
        ran = self.run_it("explain", "RLT100", stdout=writer)
        os.close(writer)
        self.assertEqual((ran.returncode, ran.stderr), (4, b""))

    def test_what_is_loaded(self) -> None:
        code = ("import sys; from relint import cli; cli.main(['--version']); "
                "print(sorted(it for it in sys.modules if 'relint' in it))")
        ran = subprocess.run([sys.executable, "-c", code], env={**os.environ, "PYTHONPATH": str(TOP / "python")},
                             stdout=subprocess.PIPE, timeout=60)
        self.assertEqual(ran.stdout.decode().splitlines()[1], str(
            ["relint", "relint.base", "relint.base.model", "relint.base.safe", "relint.cli", "relint.options"]))


@unittest.skipIf(NO_SERVICE, NO_SERVICE)
class Patterns(unittest.TestCase):
    """`rlt pattern` and `rlt compare`."""

    def test_a_pattern(self) -> None:
        ran = rlt("pattern", r"^(\w+,?)*$")
        lines = ran.out.splitlines()
        self.assertEqual((ran.status, lines[0]), (1, "exponential in search, exponential in match, exponential in fullmatch"))
        self.assertRegex(lines[1], "^exponential: a text of [0-9]+ characters keeps this search busy for ")
        self.assertEqual(lines[2:4], [r"  pattern: ^(\w+,?)*$", "             A~"])
        self.assertTrue(any(it.startswith("  fix:  ") for it in lines))

    def test_calls_flags_and_bytes(self) -> None:
        self.assertEqual(rlt("pattern", "a*b", "--call", "match").out.splitlines()[:2],
                         ["quadratic in search, linear in match, linear in fullmatch", "linear"])
        self.assertEqual(rlt("pattern", "a*a*b").status, 1)
        self.assertEqual(rlt("pattern", "a*a*b", "--call=fullmatch").status, 0)
        self.assertEqual(rlt("pattern", "(a|A)*b", "--call=match").status, 0)
        self.assertEqual(rlt("pattern", "(a|A)*b", "--flags=i").status, 1)
        found = json.loads(rlt("pattern", "(\xff|\\xff)*b", "--bytes", "--format=json").out)
        self.assertEqual((found["rule"], found["modes"]["match"]), ("RLT100", "exponential"))

    def test_what_is_no_pattern(self) -> None:
        self.assertEqual(rlt("pattern", "(")[::2], (2, "rlt: it is no valid pattern of re, at character 2\n"))
        self.assertEqual(rlt("pattern", "\u20ac", "--bytes").status, 2)
        self.assertIn("not judged (backreference)", rlt("pattern", r"(a)\1").out)

    def test_two_patterns(self) -> None:
        def compared(*words: str) -> Tuple[int, str]:
            ran = rlt("compare", *words)
            return ran.status, ran.out
        status, out = compared("a+b", "a*b")
        self.assertEqual((status, out.splitlines()[2:4]), (1, ["mode:   search", "texts:  OLD matches fewer texts (proved)"]))
        self.assertIn('"b" only NEW matches', out)
        self.assertIn('in "b", OLD finds none and NEW finds (0, 1)', out)
        self.assertEqual(compared("a+", "aa*")[0], 0)
        self.assertEqual(compared("(a)+", "(a+)")[0], 1)
        self.assertEqual(compared("a+b", "a*b", "--call=fullmatch")[0], 1)
        self.assertEqual(compared("a|b", "[ab]", "--format=json")[0], 0)
        self.assertEqual(compared("a", r"(?<=b)(a)\1")[0], 3)


if __name__ == "__main__":
    unittest.main()
