"""The words, the options of each word, and the configuration: what it may say, and that it can widen nothing."""
from __future__ import annotations

import os
import sys
import unittest
from pathlib import Path
from typing import Any, List, Tuple
from unittest import mock

from engine_support import folder
from relint import options
from relint.base.model import Narrowed
from relint.options import KEYS, OPTIONS, WORDS, Options, OptionsError, help_of, options_of, read_options


class Lines(unittest.TestCase):
    """The command line."""

    def refused(self, *words: str) -> str:
        with folder({"a.py": ""}), self.assertRaises(OptionsError) as caught:
            read_options(words)
        self.assertNotIn("\n", str(caught.exception))
        self.assertEqual(caught.exception.status, 2)
        return str(caught.exception)

    def test_each_word_and_paths(self) -> None:
        cases: List[Tuple[Tuple[str, ...], str, Any]] = [
            ((), "check", (".",)), (("a.py",), "check", ("a.py",)), (("check",), "check", (".",)),
            (("./fix",), "check", ("./fix",)), (("fix", "fix"), "fix", ("fix",)), (("--strict", "fix"), "check", ("fix",)),
            (("--", "-x", "--strict"), "check", ("-x", "--strict")), (("check", "-"), "check", ("-",)),
        ]
        with folder({"a.py": ""}):
            for words, word, paths in cases:
                found = read_options(words)
                self.assertEqual((found.word, found.paths), (word, paths))
            self.assertEqual(read_options(["pattern", "--", "-+"]).arguments, ("-+",))
            self.assertEqual(read_options(["record", "pytest", "-q"]).arguments, ("pytest", "-q"))
            self.assertEqual(read_options(["record", "--below", "a", "--", "x"]).arguments, ("x",))
            found = read_options(["accept", "b.py:3", "b.py:4:5", "--reason=it is short"])
            self.assertEqual((found.paths, found.places), (("b.py",), (("b.py", 3, 0), ("b.py", 4, 5))))
            found = read_options(["--from", "a.json", "b.json"])
            self.assertEqual((found.reports, found.are_named), (("a.json", "b.json"), False))

    def test_values(self) -> None:
        with folder({"a.py": ""}):
            found = read_options(["--max-degree=3", "--max-degree", "4", "--exclude", "a", "--exclude=b", "--write",
                                  "html=x.html",
                                  "-q", "--write=sarif=a=b"])
        self.assertEqual((found.max_degree, found.exclude, found.quiet), (4, ("a", "b"), True))
        self.assertEqual(found.write, (("html", "x.html"), ("sarif", "a=b")))

    def test_what_is_refused_in_one_line(self) -> None:
        cases = [
            (("--max-degre=1",), r"^there is no option --max-degre; did you mean --max-degree\? \(rlt check --help"),
            (("fix", "--strict"), r"^rlt fix takes no option --strict, but rlt check and rlt record do"),
            (("--diff",), r"^rlt check takes no option --diff, but rlt fix does"),
            (("--max-degree=x",), r"^--max-degree: a number from 0 to 999,999 is wanted, not 'x'$"),
            (("--max-degree",), "is wanted$"), (("--exclude", "--strict"), "is wanted$"),
            (("--exclude=",), "is wanted, not ''"),
            (("--mode=serach",), "did you mean search"), (("--strict=1",), "takes no value"), (("--format=githb",), "github"),
            (("--write=x",), "FORMAT=FILE"), (("--write=json=",), "FORMAT=FILE"),
            (("--locked",), "goes with --baseline-commit"),
            (("--config=a", "--no-config"), "either"), (("", ), "empty"), (("-", "a.py"), "alone"),
            (("fix", "-"), "for rlt check"),
            (("pattern",), "rlt pattern P is wanted"), (("compare", "a"), "OLD NEW is wanted"), (("server", "x"), "no words"),
            (("accept", "a.py"), "app.py:12"), (("accept",), "--reason WORDS is wanted"), (("record",), "COMMAND is wanted"),
            (("pattern", "a", "--flags=q"), "letters"), (("--warn-degree=2",), "must be below max-degree = 2"),
            (("--baseline-commit=-x",), "name of a commit"), (("a\ud800",), "isn't text"), (("--config", "\0"), "isn't text"),
        ]
        for words, expected in cases:
            with self.subTest(words=words):
                self.assertRegex(self.refused(*words), expected)

    def test_each_option_of_each_word_is_taken_and_changes_something(self) -> None:
        base = {"pattern": ["a"], "compare": ["a", "b"], "explain": ["x"], "record": ["--", "x"], "accept": ["--prune"]}
        for word in WORDS:
            for name, it in options_of(word).items():
                more = ["--baseline-commit=x"] if name == "--locked" else []
                value = {"--flags": "i", "--write": "json=x", "--config": "x.toml", "--color": "never", "--format": "json",
                         "--call": "match", "--mode": "match", "--warn-degree": "1"}.get(name, "7" if it.limits[1] else "x")
                with folder({"x.toml": ""}), mock.patch.object(options, "processors", lambda: 8):
                    before = read_options([word, *more, *base.get(word, [])])
                    after = read_options([word, *more, f"{name}={value}" if it.value else name, *base.get(word, [])])
                if (word, name) != ("accept", "--prune"):
                    self.assertNotEqual(before, after, (word, name))

    def test_the_format_of_a_build_server(self) -> None:
        def chosen(*words: str, **environment: str) -> str:
            clean = {"GITHUB_ACTIONS": "", "GITLAB_CI": "", **environment}
            with folder({}), mock.patch.dict(os.environ, clean):
                return read_options(words).format
        self.assertEqual(chosen(), "terminal")
        self.assertEqual(chosen(GITHUB_ACTIONS="true"), "github")
        self.assertEqual(chosen(GITLAB_CI="true"), "gitlab")
        self.assertEqual(chosen("--write=gitlab=gl.json", GITLAB_CI="true"), "terminal")
        self.assertEqual(chosen("--format=json", GITLAB_CI="true"), "json")
        self.assertEqual(chosen("pattern", "a", GITLAB_CI="true"), "terminal")

    def test_help(self) -> None:
        self.assertEqual(len(help_of().splitlines()), 10)
        for word in WORDS:
            lines = help_of(word).splitlines()
            self.assertLessEqual(len(lines), 25, word)
            self.assertNotRegex(help_of(word), "live pair|table of takers|degree that is no finding [(]")
            self.assertLessEqual(max(map(len, lines)), 127, word)
            self.assertTrue(all(it in help_of(word) for it in options_of(word)), word)
        self.assertIn("--max-degree N", help_of("check"))

    def test_the_table_is_whole(self) -> None:
        for it in OPTIONS:
            self.assertTrue(set(it.words.split()) <= set(WORDS), it.name)
            self.assertTrue(hasattr(Options(), it.attribute), it.name)


class Found(unittest.TestCase):
    """Which configuration is taken."""

    def file_for(self, *words: str) -> Tuple[str, Options]:
        found = read_options(["check", *words])
        return os.path.relpath(os.path.join(found.folder, os.path.basename(found.config))) if found.config else "", found

    def test_the_nearest_of_the_folders_above_what_is_named(self) -> None:
        files = {".git/HEAD": "", "relint.toml": "max-degree = 1", "src/a/x.py": "", "src/relint.toml": "max-degree = 3",
                 "b/y.py": ""}
        with folder(files):
            for words, file in (((), "relint.toml"), (("src/a/x.py",), "src/relint.toml"), (("src/a", "b"), "relint.toml"),
                                (("src/a/nosuch/z.py",), "src/relint.toml"), (("--no-config", "src"), ""),
                                (("-", "--stdin-filename", "src/q.py"), "src/relint.toml")):
                self.assertEqual(self.file_for(*words)[0], file)

    def test_where_none_is_looked_for(self) -> None:
        for mark in (".git/HEAD", ".git", ".hg/store"):
            with folder({"relint.toml": "jobs = 1", f"inner/{mark}": "", "inner/src/x.py": ""}):
                self.assertEqual(self.file_for("inner/src")[0], "")
        with folder({"relint.toml": "", "home/src/x.py": "", "open/src/x.py": ""}) as top:
            with mock.patch.dict(os.environ, {"HOME": str(top / "home")}):
                self.assertEqual(self.file_for("home/src")[0], "")
            (top / "open").chmod(0o777)
            self.assertEqual(self.file_for("open/src")[0], "")

    def test_a_folder_that_a_change_brings_hides_no_configuration(self) -> None:
        files = {".git/HEAD": "", "relint.toml": "max-degree = 1", "src/.hg/store": "", "src/a/.hg": "", "src/a/x.py": ""}
        with folder(files) as top:
            self.assertEqual(self.file_for("src/a"), ("relint.toml", read_options(["src/a"])))
            self.assertEqual((read_options(["src/a"]).max_degree, read_options(["src/a"]).folder), (1, str(top)))

    def test_a_pyproject(self) -> None:
        text = '[tool.relint]\nmax-degree = 1\nexclude = ["docs"]\n'
        with folder({"pyproject.toml": text, "src/pyproject.toml": "[tool.black]\nx = 1\n", "src/x.py": ""}):
            found = self.file_for("src")[1]
            self.assertEqual((found.max_degree, found.exclude), (1, ("docs",)))
        with folder({"pyproject.toml": "[tool.relint]\n", "relint.toml": "max-degree = 5"}):
            found = self.file_for()[1]
            self.assertEqual(found.max_degree, 5)
            self.assertRegex(found.notes[0], "pyproject.toml: .* no effect, as relint.toml lies beside it")

    def test_paths_are_relative_to_the_file(self) -> None:
        text = 'paths = ["src", "tools"]\naccepted = "ci/known.json"\ntakers = ["ci/t.toml"]'
        with folder({".git/HEAD": "", "relint.toml": text, "src/a/x.py": ""}):
            os.chdir("src/a")
            found = read_options([])
            self.assertEqual((found.paths, found.accepted), (("..", "../../tools"), "../../ci/known.json"))
            self.assertEqual((found.takers, found.accepted_named), (("../../ci/t.toml",), True))
            self.assertEqual(read_options(["--accepted", "x.json", "--takers=y"]).takers, ("../../ci/t.toml", "y"))
        with folder({"relint.toml": "", "src/x.py": ""}):
            os.chdir("src")
            self.assertEqual((read_options([]).accepted, read_options([]).accepted_named), ("../relint-accepted.json", False))

    def test_the_command_line_wins(self) -> None:
        text = 'max-degree = 9\npaths = ["a"]\njobs = 1\nseconds = 5\nexclude = ["x"]\ncompile-as = "match"'
        with folder({"relint.toml": text}):
            found = read_options(["--max-degree=1", ".", "--jobs=2", "--seconds=9", "--exclude=y", "--mode=search"])
        self.assertEqual((found.max_degree, found.paths, found.seconds, found.exclude), (1, (".",), 9, ("x", "y")))
        self.assertEqual([it.what for it in found.narrowed], ["exclude"])


class Trusted(unittest.TestCase):
    """A configuration may be hostile: it widens nothing, and narrows nothing in silence."""

    def refused(self, text: object, name: str = "relint.toml", status: int = 2) -> str:
        with folder({name: text}):
            os.symlink("/etc", "link")
            with self.assertRaises(OptionsError) as caught:
                read_options([])
        self.assertNotIn("\n", str(caught.exception))
        self.assertEqual(caught.exception.status, status)
        return str(caught.exception)

    def test_paths_lie_below_the_folder(self) -> None:
        for path in ("/etc", "../x", "a/../../x", "link", "link/passwd"):
            for text in (f'paths = ["{path}"]', f'accepted = "{path}"', f'takers = ["{path}"]', f'paths = [".", "{path}"]'):
                self.assertRegex(self.refused(text), "doesn't lie below the configuration's folder")

    def test_paths_lead_into_no_folder_of_version_control(self) -> None:
        for path in (".git", ".git/config", "a/.hg/x.py", ".GIT/hooks/post-commit", "a/../.git", "own"):
            for text in (f'paths = ["{path}"]', f'accepted = "{path}"', f'takers = ["{path}"]'):
                with folder({"relint.toml": text, ".git/config": "", "a/x.py": ""}):
                    os.symlink(".git", "own")
                    for named in ("--", "a/x.py"):
                        with self.assertRaisesRegex(OptionsError, "lies in a folder of version control"):
                            read_options([named])

    def test_the_usual_accepted_file_is_no_link_out_of_the_folder(self) -> None:
        with folder({"relint.toml": ""}):
            os.symlink("/etc/passwd", "relint-accepted.json")
            with self.assertRaisesRegex(OptionsError, "doesn't lie below"):
                read_options([])

    def test_limits_are_only_lowered(self) -> None:
        with folder({"relint.toml": "jobs = 999999\nseconds = 999999"}), mock.patch.object(options, "processors", lambda: 8):
            found = read_options([])
            self.assertEqual((found.jobs, found.seconds), (8, Options.seconds))
            self.assertEqual(len(found.notes), 2)
            self.assertEqual(read_options(["--jobs=999"]).jobs, 8)
            self.assertEqual(read_options(["--seconds=30"]).seconds, 30)
        with folder({"relint.toml": "jobs = 1\nseconds = 5"}), mock.patch.object(options, "processors", lambda: 8):
            self.assertEqual((read_options([]).jobs, read_options([]).seconds), (1, 5))

    def test_what_narrows_is_said(self) -> None:
        cases = {
            'paths = ["ok"]': "paths", 'exclude = ["*"]': "exclude", "max-degree = 999999": "max-degree = 999999",
            "max-pairs = 1": "max-pairs = 1", 'compile-as = "fullmatch"': "compile-as = fullmatch",
        }
        for text, what in cases.items():
            with folder({"relint.toml": text}):
                self.assertEqual(read_options([]).narrowed, (Narrowed("relint.toml", what),))
        for text in ('paths = ["."]', "max-degree = 1", "max-pairs = 1000", "strict = true", "warn-degree = 1"):
            with folder({"relint.toml": text}):
                self.assertEqual(read_options([]).narrowed, ())

    def test_wrong_keys_and_values(self) -> None:
        cases = [
            ("max_degree = 1", r"^relint\.toml: there is no key 'max_degree'; did you mean max-degree\?$"),
            ("zzz = 1", r"there is no key 'zzz'; the keys are paths, exclude, "),
            ("max-pairs = 1001", "1001: a number from 1 to"),
            ("max-pairs = true", "True: a number"), ("max-degree = -1", "-1: a number"), ("max-degree = 1.0", "1.0: a number"),
            ("compile-as = 'serach'", "did you mean search"), ("strict = 1", "true or false is wanted"),
            ("paths = []", "list of texts"), ("paths = 'src'", "list of texts"), ("exclude = ['']", "list of texts"),
            ('exclude = ["a\\u0000"]', "list of texts"), (f'exclude = ["{"*a" * 30_000}"]', "of 50,000 characters at most"),
            ("jobs = 0", "number from 1"), ("seconds = nan", "number from 1"),
            ("wide = 'yes'", "true or false"), ("accepted = ''", "value that isn't empty"),
            (f"accepted = ['{'x' * 500}']", "^.{1,140}$"),
            ("jobs =", r"^relint.toml: no TOML: .*--no-config"), (b"# \xff", "no TOML"), ("x = " + "[" * 100_000, "no TOML"),
            ("x" + ".a" * 5000 + " = 1", "no TOML"),
        ]
        for text, expected in cases:
            with self.subTest(text=text[:40]):
                self.assertRegex(self.refused(text), expected)
        self.assertRegex(self.refused("[tool]\nrelint = 1", "pyproject.toml"),
                         "^pyproject.toml: there is no table tool.relint")

    def test_what_is_no_plain_file(self) -> None:
        self.assertRegex(self.refused("#" * 1_048_577, status=3), "relint.toml can't be read: it has more than 1,048,576")
        with folder({"relint.toml/x": ""}), self.assertRaisesRegex(OptionsError, "relint.toml can't be read: "):
            read_options([])
        with folder({"x.py": ""}):
            os.mkfifo("relint.toml")
            with self.assertRaisesRegex(OptionsError, "relint.toml can't be read: it is no regular file"):
                read_options([])

    def test_a_link_out_of_the_folder(self) -> None:
        with folder({"secret": "max-degree = 7", "a/x.py": ""}):
            os.symlink("../secret", "a/relint.toml")
            with self.assertRaisesRegex(OptionsError, "a/relint.toml: a link out of its folder: name the file by --config"):
                read_options(["a"])
            self.assertEqual(read_options(["a", "--config", "a/relint.toml"]).max_degree, 7)

    def test_names_that_a_terminal_would_obey(self) -> None:
        with folder({"a\x1b[2J/relint.toml": "x = 1"}), self.assertRaisesRegex(OptionsError, r"^a\\x1b\[2J/relint.toml: "):
            read_options(["a\x1b[2J"])

    def test_without_a_reader_of_toml(self) -> None:
        with folder({"relint.toml": ""}), mock.patch.dict(sys.modules, {"tomllib": None, "tomli": None}):
            with self.assertRaisesRegex(OptionsError, "install the package tomli"):
                read_options([])

    def test_the_configuration_of_an_earlier_commit(self) -> None:
        with folder({".git/HEAD": "", "relint.toml": "max-degree = 9\nnonsense", "src/relint.toml": "max-degree = 8"}) as top:
            before = {str(Path(top, "relint.toml")): b"max-degree = 4"}
            found = read_options(["src", "--baseline-commit=x"], ".", before.get)
            self.assertEqual((found.max_degree, found.config), (4, str(top / "relint.toml")))
            self.assertRegex(found.notes[0], "^the change touches src/relint.toml: .* once it is merged$")
            self.assertRegex(found.notes[1], "^the change touches relint.toml: ")
            before = {str(Path(top, "relint.toml")): b"max-degree = 9\nnonsense",
                      str(Path(top, "src/relint.toml")): b"jobs = 1"}
            with self.assertRaisesRegex(OptionsError, "no TOML"):
                read_options([".", "--baseline-commit=x"], ".", before.get)
            os.remove("relint.toml")
            found = read_options(["--baseline-commit=x"], ".", {str(Path(top, "relint.toml")): b"max-degree = 4"}.get)
            self.assertEqual(found.max_degree, 4)

    def test_no_key_hides_in_silence(self) -> None:
        said = {"paths", "exclude", "max-degree", "max-pairs", "compile-as"}
        harmless = {"wide", "takers", "warn-degree", "strict", "accepted", "jobs", "seconds"}
        self.assertEqual(set(KEYS), said | harmless)


if __name__ == "__main__":
    unittest.main()
