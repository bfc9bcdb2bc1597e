"""The runner of `./test`: rows, texts, families and pages are read as their rules say, and what is wrong fails."""
from __future__ import annotations

import tempfile
import unittest
from pathlib import Path
from typing import Dict, List

from runner import families, pages, rows, texts
from runner.programs import Program
from runner.results import Failed, Skipped
from runner.scratch import write_script


class Texts(unittest.TestCase):
    """The forms of a text."""

    def test_forms(self) -> None:
        forms = [
            ("a\u00e9", b"a\xc3\xa9"),
            ({"text": "ab", "times": 3}, b"ababab"),
            ({"parts": ["(", {"text": "a", "times": 2}, ")"]}, b"(aa)"),
            ({"hex": "66 FF"}, b"\x66\xff"),
            ({"from": 97, "upto": 99}, b"abc"),
            ({"first": 2, "text": "abc"}, b"ab"),
        ]
        for value, expected in forms:
            with self.subTest(value=value):
                self.assertEqual(texts.text_bytes(value), expected)

    def test_other_forms_are_refused(self) -> None:
        more = {"times": 2, "text": "a", "more": 1}
        nested = {"parts": [{"parts": ["a"]}]}
        for value in (1, None, ["a"], {"text": "a"}, {"hex": "6"}, more, {"from": "a", "upto": 2}, nested):
            with self.subTest(value=value), self.assertRaises(texts.BadText):
                texts.text_bytes(value)


class Rows(unittest.TestCase):
    """How the files of rows are read."""

    def refused(self, text: str, message: str) -> None:
        with self.assertRaisesRegex(rows.BadRow, message):
            rows.rows_of_text(text, "some.toml", {})

    def test_defaults(self) -> None:
        row = rows.rows_of_text('[[row]]\nname = "a-row"\nwords = ["cost"]\n', "some.toml", {})[0]
        self.assertEqual((row.stdout, row.stderr, row.status, row.files, row.family), ("", "", 0, {}, -1))
        self.assertFalse(row.needs_failing_calls())

    def test_what_is_wrong_is_named(self) -> None:
        self.refused('[[row]]\nwords = []\n', "some.toml: row 1: the field name is missing")
        self.refused('[[row]]\nname = "a"\n', "some.toml: a: the field words is missing")
        self.refused('[[row]]\nname = "a"\nwords = []\ncolour = 1\n', "a: the field colour isn't known")
        self.refused('[[row]]\nname = "a"\nwords = "cost"\n', "a: the value of words is of another kind")
        self.refused('[[row]]\nname = "A row"\nwords = []\n', "lower-case words")
        self.refused('[[row]]\nname = "a"\nwords = [1]\n', "1 is no text")
        self.refused('[[row]]\nname = "a"\nwords = []\nstable = true\nround = true\n', "only one of stable, round")
        self.refused('[[row]]\nname = "a"\nwords = []\n[[row]]\nname = "a"\nwords = []\n', "a row of this name too")
        self.refused('x = 1\n', "something other than")
        self.refused('[[row]\n', "some.toml: ")

    def test_rows_that_need_failing_calls(self) -> None:
        for line in ("tree_failing = [1]", "out_failing = [1]", "err_failing = [1]", "out_step = 1", "every_call = true"):
            row = rows.rows_of_text('[[row]]\nname = "a"\nwords = []\n%s\n' % line, "some.toml", {})[0]
            with self.subTest(line=line):
                self.assertTrue(row.needs_failing_calls())
                with self.assertRaises(Skipped):
                    rows.run_row(row, Program(Path("none")))

    def test_some_rows_by_a_part_of_their_names(self) -> None:
        program = Program(Path("/nowhere/relint"))
        chosen = [it.name for it in rows.load_rows() if "sarif" in it.name]
        result = rows.run_some(program, "sarif")
        self.assertEqual(sorted(it.test for it in [*result.failures, *result.skips]), sorted(chosen))
        self.assertEqual([it.test for it in rows.run_some(program, "no such row").failures], ["no such row"])

    def test_the_rows_of_the_repository(self) -> None:
        names = [row.name for row in rows.load_rows()]
        self.assertGreater(len(names), 150)
        self.assertEqual(len(names), len(set(names)))


class Judging(unittest.TestCase):
    """A program that answers something else fails its row."""

    def judged(self, fields: Dict[str, object], script: str) -> str:
        with tempfile.TemporaryDirectory() as folder:
            program = Path(folder) / "program"
            write_script(program, "#!/bin/sh\n" + script)
            row = rows.row_of({"name": "a", "words": ["class", "a*"], **fields})
            try:
                rows.run_row(row, Program(program))
            except Failed as failure:
                return str(failure)
        return ""

    def test_outputs_and_status(self) -> None:
        fields: Dict[str, object] = {"stdout": "x\n", "stderr": "y\n", "status": 3}
        self.assertEqual(self.judged(fields, "echo x; echo y >&2; exit 3"), "")
        self.assertIn("standard output", self.judged(fields, "echo z; echo y >&2; exit 3"))
        self.assertIn("standard error", self.judged(fields, "echo x; exit 3"))
        self.assertIn("the status", self.judged(fields, "echo x; echo y >&2"))

    def test_files(self) -> None:
        fields: Dict[str, object] = {"files": {"d/m.py": "text\n", "e/": ""}, "stdout": "text\n"}
        self.assertEqual(self.judged(fields, "test -d e && cat d/m.py"), "")

    def test_a_family_has_to_cost_enough(self) -> None:
        fields: Dict[str, object] = {"family": 2, "stdout": "degree 1\n"}
        answers = ('case $1 in class) printf \'degree 1\\n  family x0 r"" y1 r"%s" x1 r""\\n\';; '
                   'cost) echo "steps %s matched";; esac')
        self.assertEqual(self.judged(fields, answers % ("a", 2)), "")
        self.assertIn("less than 2", self.judged(fields, answers % ("a", 1)))
        self.assertIn("isn't shown by", self.judged(fields, answers % ("", 2)))

    def test_a_second_run_and_a_beginning(self) -> None:
        self.assertIn("a second run", self.judged({"stable": True, "stdout": "1\n"},
                                                  "echo >>count; wc -l <count | tr -d ' '"))
        self.assertEqual(self.judged({"begins": "steps "}, "echo steps 7"), "")
        self.assertIn("begins with", self.judged({"begins": "steps "}, "echo steps; echo 7"))


class Families(unittest.TestCase):
    """The lines of families."""

    def test_a_line_is_read(self) -> None:
        family = families.read_family('  family x0 r"a\\b" y1 "\\n\\x00\\u00e9\\"" x1 r"" y2 r"c" x2 r"!"')
        self.assertEqual(family.heads, ["a\\b", "", "!"])
        self.assertEqual(family.pumps, ["\n\0\u00e9\"", "c"])
        self.assertEqual(family.text(2), "a\\b" + "\n\0\u00e9\"" * 2 + "cc!")
        self.assertTrue(family.fits("degree 2"))
        self.assertFalse(family.fits("degree 1"))
        self.assertFalse(family.fits("exponential"))

    def test_other_lines_are_refused(self) -> None:
        for line in ("degree 1", '  family x0 a', '  family x0 r"a" x1 r"b"', '  family x0 r"a" y1 r"b"', '  family x0 "\\q"'):
            with self.subTest(line=line), self.assertRaises(Failed):
                families.read_family(line)

    def test_least_steps(self) -> None:
        self.assertEqual([families.least_steps("degree 0", k) for k in (0, 1, 2)], [1, 1, 1])
        self.assertEqual([families.least_steps("degree 2", k) for k in (0, 3)], [0, 9])
        self.assertEqual([families.least_steps("exponential", k) for k in (0, 6)], [1, 64])


PAGE = """# A page

```console
$ cat made.txt
one
$ cat made.txt | tr a-z A-Z
ONE
$ printf 'a\\nb\\nc'
a
...
c
$ for word in x y
> do echo $word; done
x
y
$ false
$ echo $?
1
```

- in a list

  ```console
  $ echo indented
  indented
  ```

````markdown
```console
$ never run
```
````
"""


class Pages(unittest.TestCase):
    """What is taken out of a page, and what fails."""

    def judged(self, page: str) -> List[str]:
        with tempfile.TemporaryDirectory() as folder:
            base = Path(folder) / "base"
            base.mkdir()
            result = pages.judge_page("page.md", page, base, {"PATH": "/usr/local/bin:/usr/bin:/bin", "LC_ALL": "C.UTF-8"})
        return ["passed"] * result.passed + ["skipped " + note.test for note in result.skips] + [
            "failed %s %s" % (note.test, note.reason) for note in result.failures]

    def test_a_page_that_holds(self) -> None:
        self.assertEqual(self.judged(PAGE), ["passed"] * 7)

    def test_an_output_that_differs(self) -> None:
        answers = self.judged("```console\n$ echo a\nb\n$ echo c\nc\n```\n")
        self.assertEqual(answers[0], "passed")
        self.assertIn("failed page.md:2", answers[1])
        self.assertIn("-b", answers[1])
        self.assertIn("+a", answers[1])

    def test_an_output_that_is_not_shown(self) -> None:
        self.assertIn("failed page.md:2", self.judged("```console\n$ echo a\n```\n")[0])

    def test_a_shell_that_ends(self) -> None:
        answers = self.judged("```console\n$ echo a\na\n$ exit 3\n$ echo a\na\n```\n")
        self.assertEqual(answers[0], "passed")
        self.assertIn("failed page.md:4 the shell ended here", answers[1])
        self.assertEqual(len(answers), 2)

    def test_a_block_without_a_mark(self) -> None:
        self.assertIn("isn't marked console", self.judged("```\n$ echo a\n```\n")[0])

    def test_scripts_are_read(self) -> None:
        self.assertEqual(self.judged("```sh\ngit clone somewhere && cd there\n```\n"), ["passed"])
        self.assertIn("doesn't read it", self.judged("```sh\nif true\n```\n")[0])
        self.assertIn("begins with `$ `", self.judged("```sh\n$ true\n```\n")[0])

    def test_a_program_that_is_missing(self) -> None:
        answers = self.judged("```console\n$ echo a\na\n$ some-program-that-is-not-there x\n$ echo b\nb\n```\n")
        self.assertEqual(answers, ["passed", "skipped page.md:4"])

    def test_what_no_test_runs(self) -> None:
        self.assertIn("mark the block sh", self.judged("```console\n$ ./test --only rows\n```\n")[0])


if __name__ == "__main__":
    unittest.main()
