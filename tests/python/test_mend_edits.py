"""New patterns put into sources: literals, patches, files."""
from __future__ import annotations

import ast
import difflib
import os
import random
import shutil
import subprocess
import time
import unittest
from pathlib import Path
from typing import List, Tuple, Union
from unittest import mock

from engine_support import folder, missing
from relint.base.model import NEW, Entry, Finding, Literal, Offer, Place, Site, Verdict
from relint.engine.engine import judge
from relint.mend import edits
from relint.options import Options

NO_PROGRAM = missing("relint")
SOURCE = '''import re

A = re.compile(r'^(?P<suffix>[A-Z]+)*$')
C = re.match('^"(?:\\\\\\\\.|[^"])*' '"', x)
'''
NAME = "a\n+++ b/.git/hooks/pre-commit\n@@ -0,0 +1 @@\n+touch canary\n\x1b\u202e.py"


def site_of(source: str, *literals: str) -> Site:
    found: List[Literal] = []
    at = 0
    for it in literals:
        at = source.index(it, at)
        found.append(Literal(it, at, at + len(it)))
        at += len(it)
    return Site(ast.literal_eval("(" + "\n".join(literals) + ")"), 0, tuple(found))


def changed(literal: str, new: str) -> str:
    """The code of a literal, or of two joined ones, after the new pattern was put in."""
    text = f"import re\nre.match({literal}, s)\n"
    parts = [literal] if not literal.count("' ") else literal.replace("' ", "'\0").replace("'\n ", "'\0").split("\0")
    site = site_of(text, *parts)
    value: Union[str, bytes] = new if isinstance(site.pattern, str) else new.encode("latin-1")
    after = edits.applied(text, edits.edits(site, value))
    call = ast.parse(after).body[1]
    assert isinstance(call, ast.Expr) and isinstance(call.value, ast.Call)
    assert ast.literal_eval(call.value.args[0]) == value, after
    return after[len("import re\nre.match("):-len(", s)\n")]


class Literals(unittest.TestCase):
    def test_each_spelling_stays(self) -> None:
        for literal, new, wanted in (
                ("r'(a+)*'", "(a+)?", "r'(a+)?'"), ("'(a+)*\\n'", "(a+)?\n", "'(a+)?\\n'"),
                ("'(\\d+)*x'", "(\\d+)?x", "'(\\d+)?x'"),
                ("R'''(a+)*\n b'''", "(a+)?\n b", "R'''(a+)?\n b'''"), ('rb"(a+)*"', "(a+)?", 'rb"(a+)?"'),
                ("u'(a+)*'", "(a+)?", "u'(a+)?'"), ("'a\\x41\\u0042(b+)*'", "aAB(b+)?", "'a\\x41\\u0042(b+)?'"),
                ("'(a+)*\\\n(b+)*'", "(a+)?(b+)*", "'(a+)?\\\n(b+)*'"), ("'\\N{BULLET}a*'", "\u2022a", "'\\N{BULLET}a'")):
            with self.subTest(literal=literal):
                self.assertEqual(changed(literal, new), wanted)

    def test_joined_literals_change_each_at_its_place(self) -> None:
        self.assertEqual(changed("r'(a+)*' '(b+)*'", "(a+)?(b+)?"), "r'(a+)?' '(b+)?'")
        self.assertEqual(changed("'ab' r'cd'", "ad"), "'a' r'd'")
        self.assertEqual(changed("'ab' 'cd'", "abxcd").replace("' '", ""), "'abxcd'")

    def test_what_a_raw_literal_cannot_hold(self) -> None:
        for literal, new in (("r'a'", "a*'"), ("r'a'", "a\n"), ("r'a'", "'\""), ("'''a'''", "'''"), ("r'a'", "a\\"),
                             ("'a'", "\r\0é")):
            with self.subTest(literal=literal, new=new):
                changed(literal, new)

    def test_values_are_those_of_python(self) -> None:
        for text in (
                "'\\a\\b\\f\\n\\r\\t\\v\\'\\\"\\\\\\0\\12\\377\\x7f\\q\\8'",
                '"""a\r\nb\\\r\nc"""', "r'\\n\\''", "b'\\xff\\u0041\\N{x}'",
                "'\\u00e9\\U0001f600'"):
            with self.subTest(text=text):
                value = ast.literal_eval(text)
                self.assertEqual(edits.value_of([Literal(text, 0, len(text))]), value)

    def test_what_cannot_be_read_is_refused(self) -> None:
        for text in ("f'a'", "x", "'\\N{NO SUCH NAME}'", "b'a' 'b'"[4:-1], "'''a'"):
            with self.subTest(text=text), self.assertRaises(edits.Unchangeable):
                edits.value_of([Literal(text, 0, len(text))])
        with self.assertRaises(edits.Unchangeable):
            edits.edits(Site("a+", 0, (Literal("'a'", 0, 3),)), "b")

    def test_a_literal_to_show(self) -> None:
        self.assertEqual(edits.literal_of(site_of("x = r'a+' 'b'", "r'a+'", "'b'"), "ab"), "r'a' 'b'")


def finding(path: str, source: str, literal: str, new: str, place: Tuple[int, int] = (3, 16)) -> Finding:
    verdict = Verdict("degree", 1)
    offer = Offer("fix", new, literal, verdict)
    entry = Entry(path, "exponential", Place(*place), "compile", Verdict("exponential"))
    return Finding(entry, state=NEW, site=site_of(source, literal), offers=(offer,))


def patched(findings: List[Finding]) -> List[str]:
    """The lines of a patch, without asking the program whether the files are what was judged."""
    with mock.patch.object(edits.Change, "verify"):
        made = list(edits.changes(findings, ["."], Options(diff=True)))
    return [it for it in made if isinstance(it, str)]


class Patches(unittest.TestCase):
    def test_names_cannot_steer_a_patch(self) -> None:
        with folder({NAME: SOURCE}):
            found = finding(NAME, SOURCE, "r'^(?P<suffix>[A-Z]+)*$'", "^(?P<suffix>[A-Z]+)?$")
            lines = patched([found])
        coded = NAME.replace("\n", "\\012").replace("\x1b", "\\033").replace("\u202e", "\\342\\200\\256")
        self.assertEqual(lines[:2], [f'--- "a/{coded}"\n', f'+++ "b/{coded}"\n'])
        self.assertEqual([it for it in lines if it.startswith(("+++", "---", "+touch"))], lines[:2])
        self.assertEqual(edits.header_name("a b"), "a b\t")
        self.assertRaises(edits.Unchangeable, edits.header_name, "\ud800")

    def test_it_is_what_a_diff_says(self) -> None:
        chance = random.Random(1)
        for _ in range(300):
            count = chance.randrange(1, 40)
            text = "".join(f"{number} {chance.randrange(3)}\n" for number in range(count)) + chance.choice(["x", "x\n"])
            # (behind a literal there is always its quote)
            places = sorted({chance.randrange(len(text) - 2) for _ in range(chance.randrange(1, 6))})
            ends = [min(it + chance.randrange(1, 4), end, (text + "\n").index("\n", it)) for it, end in
                    zip(places, [*places[1:], len(text) - 2])]
            edited = [edits.Edit(it, end, f"<{it}>" + "\n" * chance.randrange(2)) for it, end in zip(places, ends)]
            old, new = edits.LINES.findall(text), edits.LINES.findall(edits.applied(text, edited))
            found = list(edits.hunks(old, new, edits.blocks(text, edited)))
            self.assertEqual(found, list(difflib.unified_diff(old, new))[2:], (text, edited))

    def test_lines_that_are_alike_take_no_time(self) -> None:
        text = "import re\nre.search(r'(a|a)*b', s)\n" + "".join(f"{it % 101}\n" for it in range(1_000_000))
        site = site_of(text, "r'(a|a)*b'")
        entry = Entry("a.py", "exponential", Place(2, 11), "search", Verdict("exponential"))
        offer = Offer("fix", "a*b", "r'a*b'", Verdict("degree", 1))
        change = edits.Change("a.py", text.encode(), [(Finding(entry, state=NEW, site=site), offer)])
        begun = time.process_time()
        self.assertEqual(list(change.diff())[2:6], ["@@ -1,5 +1,5 @@\n", " import re\n", "-re.search(r'(a|a)*b', s)\n",
                                                    "+re.search(r'a*b', s)\n"])
        self.assertLess(time.process_time() - begun, 5)

    @unittest.skipUnless(shutil.which("git"), "it needs git")
    def test_git_takes_it(self) -> None:
        name = 'a "b\\ \x1b\u202e.py'
        data = "\ufeff" + SOURCE.replace("\n", "\r\n") + "# end"
        with folder({name: data.encode()}) as here:
            found = finding(name, data[1:], "r'^(?P<suffix>[A-Z]+)*$'", "^(?P<suffix>[A-Z]+)?$")
            text = "".join(patched([found]))
            subprocess.run(["git", "apply", "-"], input=text.encode(), check=True)
            self.assertEqual((here / name).read_bytes().decode(), data.replace("+)*$'", "+)?$'"))

    def test_what_is_chosen(self) -> None:
        verdict = Verdict("degree", 3)
        found = finding("a.py", SOURCE, "r'^(?P<suffix>[A-Z]+)*$'", "x")
        for kinds, advice, wanted in ((["advice", "better"], False, None), (["better", "fix"], False, "fix"),
                                      (["advice", "better"], True, "better"), (["advice"], True, "advice")):
            offers = tuple(Offer(it, "x", "'x'", verdict) for it in kinds)
            chosen = edits.chosen(Finding(found.entry, state=NEW, site=found.site, offers=offers), advice)
            self.assertEqual(chosen and chosen.kind, wanted)
        checked = (Offer("fix", "x", "'x'", verdict, proof="checked"), Offer("fix", "x", "'x'", verdict, needs="Python 3.11"))
        self.assertIsNone(edits.chosen(Finding(found.entry, state=NEW, site=found.site, offers=checked), True))


@unittest.skipIf(NO_PROGRAM, NO_PROGRAM)
class Files(unittest.TestCase):
    def written(self, source: str, now: Union[str, bytes], new: str = "^(?P<suffix>[A-Z]+)?$") -> Tuple[bytes, edits.Written]:
        with folder({"a.py": source}) as here:
            literal = "r'^(?P<suffix>[A-Z]+)*$'"
            every = [Finding(it) for it in judge(["a.py"], Options(), float("inf")).entries]
            own = finding("a.py", source, literal, new)
            findings = [own if it.entry.place == own.entry.place else it for it in every]
            Path("a.py").write_bytes(now.encode() if isinstance(now, str) else now)
            os.chmod("a.py", 0o640)
            done = [it for it in edits.changes(findings, ["."], Options()) if isinstance(it, edits.Written)]
            self.assertEqual(os.stat("a.py").st_mode & 0o777, 0o640)
            self.assertEqual([it.name for it in here.iterdir()], ["a.py"])
            return Path("a.py").read_bytes(), done[0]

    def test_a_file_is_changed(self) -> None:
        data, done = self.written(SOURCE, SOURCE)
        self.assertEqual((done.fixed, done.why), (1, ""))
        self.assertEqual(data.decode(), SOURCE.replace("+)*$'", "+)?$'"))

    def test_a_file_that_changed_is_left_alone(self) -> None:
        changed: List[Union[str, bytes]] = ["x = 1\n" + SOURCE, SOURCE + "re.search('(a+)+b', x)\n", SOURCE.encode("utf-16")]
        for now in changed:
            data, done = self.written(SOURCE, now)
            self.assertEqual(data, now.encode() if isinstance(now, str) else now)
            self.assertEqual(done.fixed, 0)
            self.assertIn("it is", done.why)

    def test_a_worse_pattern_is_not_written(self) -> None:
        data, done = self.written(SOURCE.replace("*$", "*$"), SOURCE, "^(?P<suffix>[A-Z]+)*x$")
        self.assertEqual((done.fixed, done.why), (1, "") if b"*x$" in data else (0, done.why))

    def test_links_and_folders_outside(self) -> None:
        with folder({"secret/a.py": SOURCE, "in/x": ""}) as here:
            (here / "in" / "link.py").symlink_to(here / "secret" / "a.py")
            (here / "in" / "folder").symlink_to(here / "secret")
            for path in ("in/link.py", "in/folder/a.py", "secret/a.py"):
                found = finding(path, SOURCE, "r'^(?P<suffix>[A-Z]+)*$'", "^(?P<suffix>[A-Z]+)?$")
                for options in (Options(), Options(diff=True)):
                    made = list(edits.changes([found], ["in"], options))
                    self.assertEqual([isinstance(it, edits.Written) and it.why != "" for it in made], [True])
            self.assertEqual((here / "secret" / "a.py").read_text(), SOURCE)


if __name__ == "__main__":
    unittest.main()
