"""`rlt record`: what is noted of a program and of those that it starts, and that nothing else changes."""
from __future__ import annotations

import json
import os
import subprocess
import sys
import unittest
from pathlib import Path
from typing import Any, List, Mapping, Tuple

from engine_support import folder, missing
from screens_support import rlt
from relint.trials.record import WATCH, environment, read_notes

NO_ASK = missing("relint-ask")
PROGRAM = """\
import re, subprocess, sys
re.compile("^(%s+)+$" % "x", re.I | re.M)
for number in range(50):
    re.match("a%d" % (number % 2), "s")
re.sub(b"b", b"", b"")
re.compile(re.compile("c"))
try:
    re.compile("(")
except re.error as error:
    assert "missing )" in str(error)
if len(sys.argv) == 1:
    subprocess.run([sys.executable, __file__, "again"], check=True)
    subprocess.run([sys.executable, "-c", "import re, os; re.compile('killed'); os._exit(0)"], check=True)
print("out", *sys.argv[1:])
"""
MADE = b"made\tre\tmatch\t2\t3\t" + b"/x.py".hex().encode() + b"\ts" + b"a".hex().encode()


def notes_of(files: Mapping[str, object], *words: str, **variables: str) -> Tuple[List[Tuple[Any, ...]], str]:
    """What is noted of a program of these files, as pattern, flags, function, file name and line, and what it wrote."""
    with folder(files) as here:
        (here / "notes").mkdir()
        known = {**environment(str(here / "notes")), **variables}
        ran = subprocess.run([sys.executable, *words], env=known, stdout=subprocess.PIPE, check=True)
        found = read_notes("notes", str(here)).found
    return [(it.pattern, it.flags, it.name, Path(it.path).name, it.line) for it in found], ran.stdout.decode()


class Notes(unittest.TestCase):
    """What is noted."""

    def test_program_and_those_that_it_starts(self) -> None:
        noted, out = notes_of({"p.py": PROGRAM}, "p.py")
        self.assertEqual(out, "out again\nout\n")
        for note in (("^(x+)+$", 10, "compile", "p.py", 2), ("a0", 0, "match", "p.py", 4), ("a1", 0, "match", "p.py", 4),
                     (b"b", 0, "sub", "p.py", 5), ("c", 0, "compile", "p.py", 6), ("(", 0, "compile", "p.py", 8)):
            with self.subTest(note=note):
                self.assertEqual(noted.count(note), 1)

    def test_a_process_that_ends_at_once_loses_nothing(self) -> None:
        with folder({}) as here:
            words = [sys.executable, "-c", "import re, os; re.compile('killed'); os._exit(0)"]
            subprocess.run(words, env=environment(str(here)), check=True)
            self.assertIn("killed", [it.pattern for it in read_notes(str(here)).found])

    def test_the_sitecustomize_that_was_there_is_run(self) -> None:
        other = {"site/sitecustomize.py": "import re\nre.compile('other')\nSEEN = 1\n",
                 "p.py": "import sitecustomize\nprint(sitecustomize.SEEN)\n"}
        noted, out = notes_of(other, "p.py", PYTHONPATH=os.pathsep.join((str(WATCH), "site")))
        self.assertEqual(out, "1\n")
        self.assertIn(("other", 0, "compile", "sitecustomize.py", 2), noted)

    def test_nothing_else_changes(self) -> None:
        source = ("import pickle, re, sys, traceback, warnings\nprint(type(re.__loader__).__name__, re.__file__)\n"
                  "print([it for it in sys.path if 'watch' in it], re.compile('a') is re.compile('a'))\n"
                  "print(pickle.loads(pickle.dumps(re.compile('a+', re.I))), re._compile.__module__)\n"
                  "with warnings.catch_warnings(record=True) as seen:\n"
                  "    warnings.simplefilter('always')\n    re.compile('[[a]')\n    re.search('[[b]', '')\n"
                  "print([(it.lineno, it.filename == __file__) for it in seen])\n"
                  "try:\n    re.compile('(')\nexcept re.error as error:\n"
                  "    print([(it.name, it.lineno) for it in traceback.extract_tb(error.__traceback__)])\n")
        with folder({"p.py": source}):
            plain = subprocess.run([sys.executable, "p.py"], stdout=subprocess.PIPE, check=True).stdout.decode()
        self.assertEqual(notes_of({"p.py": source}, "p.py")[1], plain)

    def test_a_module_without_a_source(self) -> None:
        source = ("import sitecustomize, types\nmodule = types.ModuleType('regex.other')\n"
                  "code = 'def _compile(pattern, flags, more=0):\\n return pattern, flags, more\\n'\n"
                  "code += 'def compile(pattern):\\n return _compile(pattern, 2, more=3)\\n'\n"
                  "exec(compile(code, 'nowhere.py', 'exec'), module.__dict__)\nsitecustomize.watch(module)\n"
                  "print(module.compile('a'), module._compile.__qualname__)\n")
        noted, out = notes_of({"p.py": source}, "p.py")
        self.assertEqual(out, "('a', 2, 3) _compile\n")
        self.assertIn(("a", 2, "compile", "p.py", 7), noted)

    def test_without_a_folder_nothing_is_watched(self) -> None:
        known = {**os.environ, "PYTHONPATH": str(WATCH)}
        known.pop("RELINT_RECORD", None)
        words = [sys.executable, "-c", "import re; print(hasattr(re, '_relint_record'))"]
        self.assertEqual(subprocess.run(words, env=known, stdout=subprocess.PIPE, check=True).stdout, b"False\n")


class Forged(unittest.TestCase):
    """Notes that a stranger wrote."""

    def test_lines(self) -> None:
        wrong = [b"x", b"made\tre\tf\t0\t0\t\ts61", MADE.replace(b"re", b"os"), MADE.replace(b"made", b"left"), MADE + b"zz",
                 MADE.replace(b"2f782e7079", b"2f7800"), MADE.replace(b"\t2\t", b"\t-2\t"), MADE.replace(b"match", b"a b"),
                 MADE.replace(b"s61", b"s" + b"61" * 200_001), MADE.replace(b"\t3\t", b"\t99999999999\t"), b"\xff", b"\t" * 6]
        right = MADE + b"\nleft out\tre\tf\t0\t0\t\ts\n"
        with folder({"n/1": b"\n".join(wrong), "n/2": right}):
            recorded = read_notes("n")
        self.assertEqual((recorded.left_out, len(recorded.found), recorded.wrong), (1, 1, len(wrong)))

    def test_files(self) -> None:
        with folder({"n/sub/x": MADE, "n/1": MADE, "secret": MADE}) as here:
            os.mkfifo("n/pipe")
            os.symlink(here / "secret", "n/link")
            recorded = read_notes("n")
            self.assertEqual((len(recorded.found), recorded.processes, recorded.wrong), (1, 1, 3))
            self.assertEqual(read_notes("gone").wrong, 1)


@unittest.skipIf(NO_ASK, NO_ASK)
class Command(unittest.TestCase):
    """The command."""

    def test_judges_what_was_made(self) -> None:
        with folder({"p.py": PROGRAM}):
            ran = rlt("record", "--below", ".", "--", sys.executable, "p.py")
            self.assertEqual(ran.status, 1, ran.err)
            self.assertIn("p.py:2:1: RLT300 exponential", ran.out)
            self.assertIn("the program ended with status 0", ran.out)

    def test_report(self) -> None:
        with folder({"p.py": "import re\nre.match('(a|a)*b', 's')\n"}):
            ran = rlt("record", "--format", "json", "--below", ".", "--", sys.executable, "p.py")
            self.assertEqual([it["kind"] for it in json.loads(ran.out)["beyond"]], ["exponential"])

    def test_mistakes(self) -> None:
        for words in ((), ("--", "no-such-program"), ("--nothing", "--", "true")):
            with self.subTest(words=words):
                ran = rlt("record", *words)
                self.assertEqual((ran.status, ran.out, ran.err.count("\n")), (2, "", 1))


if __name__ == "__main__":
    unittest.main()
