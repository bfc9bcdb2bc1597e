"""A source: the pattern at a place with its flags and offsets, the comments that hide findings, and sources that do harm."""
from __future__ import annotations

import ast
import re
import unittest
import warnings
from typing import Dict, Optional, Tuple
from unittest import mock

from relint.base.model import Place, Site
from relint.code.source import FLAGS, SourceError, Unit, Unparsed, hides, is_test

DEEP = ("1" + "+1" * 50_000, "(" * 50_000 + ")" * 50_000, "a" + ".a" * 50_000, "not " * 50_000 + "1")


def site(text: str, line: int, column: int, call: str = "compile") -> Optional[Site]:
    """The pattern at a place."""
    return Unit("a.py", text.encode("utf-8")).site(Place(line, column), call)


def flags(call: str, front: str = "import re") -> Optional[int]:
    """The flags of a call of `re` whose pattern is 'a', behind a line of source."""
    found = site(f"{front}\n{call}\n", 1 + len((front + "\n").splitlines()), call.index("'a'") + 1,
                 re.sub(r"\(.*", "", call, flags=re.S).rpartition(".")[2])
    assert found is not None, call
    return found.flags


class Patterns(unittest.TestCase):
    def value(self, text: str, line: int, column: int) -> object:
        found = site(text, line, column)
        return found.pattern if found else None

    def test_values(self) -> None:
        self.assertEqual(self.value('re.compile(r"\\d+")', 1, 12), r"\d+")
        self.assertEqual(self.value("x = re.compile(rb'a\\xff')", 1, 16), b"a\\xff")
        self.assertEqual(self.value('re.compile("a\\tb")', 1, 12), "a\tb")

    def test_joined_literals(self) -> None:
        found = site('re.compile(\n  r"a"  # first\n\n  "b" \'c\',\n  re.I)\n', 2, 3)
        assert found is not None
        self.assertEqual((found.pattern, found.flags, len(found.literals)), ("abc", re.I, 3))

    def test_line_ends_and_form_feeds(self) -> None:
        for end in ("\n", "\r\n", "\r"):
            unit = Unit("a.py", f"import re\f{end}\f{end}re.match('''a{end}b''', s, re.I){end}".encode())
            found = unit.site(Place(3, 10), "match")
            assert found is not None
            self.assertEqual((found.pattern, found.flags), ("a\nb", re.I))
            self.assertEqual([unit.text[it] for it in found.offsets], ["a", end[0], "b", "'"])

    def test_byte_order_mark_and_wide_characters(self) -> None:
        unit = Unit("a.py", "\ufeffx = 'é𝒳'; re.match('ü+', s)".encode("utf-8"))
        found = unit.site(Place(1, 20), "match")
        assert found is not None
        self.assertEqual((found.pattern, found.flags), ("ü+", 0))
        self.assertEqual((unit.place(unit.offset(Place(1, 20))), unit.line(1)[19]), (Place(1, 20), "'"))

    def test_nothing_there(self) -> None:
        for text, column in (("re.compile(name)", 12), ("re.compile(f'{a}')", 12), ("re.compile('a", 12), ("", 1), ("x", 40)):
            self.assertIsNone(site(text, 1, column), text)

    def test_no_warning_for_an_odd_escape(self) -> None:
        with warnings.catch_warnings():
            warnings.simplefilter("error")
            self.assertEqual(self.value('re.compile("\\d\\.")', 1, 12), "\\d\\.")

    def test_many_patterns_in_a_large_file(self) -> None:
        count = 1000
        unit = Unit("a.py", ("import re\n" + "re.match('a+b', s)\n" * count).encode())
        with mock.patch.object(unit, "line", wraps=unit.line) as taken:
            self.assertTrue(all(unit.site(Place(line, 10), "match") for line in range(2, count + 2)))
        self.assertLess(taken.call_count, 12 * count)

    def test_function_and_lines(self) -> None:
        unit = Unit("a.py", b"import re\nclass A:\n    def f(self):\n        g = lambda: re.match('a'\n  'b', s)\n"
                            b"re.match('c', s)\n")
        self.assertEqual(unit.function_at(Place(4, 30)), "A.f")
        self.assertEqual(unit.function_at(Place(6, 10)), "")
        place = Place(4, 30)
        self.assertEqual(unit.lines_to_show(place, unit.site(place, "match")), ((4, unit.line(4)), (5, "  'b', s)")))

    def test_tests(self) -> None:
        wanted = {"tests/a.py": True, "a/tests/b/c.py": True, "test_a.py": True, "a/conftest.py": True, "a/test.py": False,
                  "latest/a.py": False, "a/contest.py": False}
        self.assertEqual({it: is_test(it) for it in wanted}, wanted)


class Flags(unittest.TestCase):
    def check(self, cases: Dict[str, Optional[int]], front: str = "import re") -> None:
        for call, wanted in cases.items():
            with self.subTest(call=call, front=front):
                self.assertEqual(flags(call, front), wanted if wanted is None else int(wanted))

    def test_written_out(self) -> None:
        self.check({
            "re.compile('a', re.I)": re.I, "re.compile('a', flags=re.M | re.VERBOSE)": re.M | re.X, "re.compile('a')": 0,
            "re.sub('a', '', s, 0, re.S)": re.S, "re.sub('a', '', s, flags=re.ASCII)": re.A, "re.compile('a', DOTALL)": re.S,
            "re.compile('a', 0)": 0, "re.split('a', s, 1, re.DEBUG)": re.DEBUG, "re.compile('a', re.I + re.U)": re.I | re.U,
            "re.compile('a', 2)": re.I, "re.compile(pattern='a', flags=re.RegexFlag.I)": re.I,
        })

    def test_not_known(self) -> None:
        self.check({
            "re.compile('a', flags)": None, "re.compile('a', 1 - re.I)": None, "re.compile('a', re.L)": None,
            "re.compile('a', re.I + re.I)": None, "re.compile('a', *b)": None, "re.compile('a', **b)": None,
            "re.sub('a', *b)": None, "re.compile('a', True)": None, "re.compile('a', 1 << 40)": None,
            "re.compile('a', re.I" + " | re.I" * 200 + ")": None, "re.compile('a', I if x else 0)": None,
        })
        self.check({"re.compile('a', self.S)": None}, "def f(self):\n pass\nself = 1")

    def test_names(self) -> None:
        self.check({"re.compile('a', IGNORE | r.M)": re.I | re.M}, "import re as r\nfrom re import I as IGNORE")
        self.check({"re.compile('a', FLAGS)": re.I | re.M, "re.compile('a', FLAGS | re.S)": re.I | re.M | re.S},
                   "BASE = re.I\nFLAGS: int = BASE + re.M")
        for front in ("F = re.I\nF = re.M", "F = re.I\nF |= re.M", "for F in x: pass", "F = F", "from y import F", "F, G = x",
                      "F = re.I\nglobals()[x] = re.M"):
            self.check({"re.compile('a', F)": None}, front)

    def test_a_source_of_python_2(self) -> None:
        self.check({
            "re.compile('a', re.I | re.M)": re.I | re.M, "re.compile('a')": 0, "re.match('a', f(b, c), re.X)": re.X,
            "re.sub('a', 'b', c, flags=re.S,)": re.S, "re.sub('a', 'b', re.S)": 0,
            "re.compile('a' 'b',\n  # c\n  re.I)": re.I, "re.compile('a', *b)": None, "re.compile('a', b)": None,
            "re.compile('a', b=re.I)": 0, "re.compile('a' + b, re.I)": None, "re.sub('a', lambda m: (m, m), b)": None,
            "re.compile('a', re.I": None, "re.match('a', s, re.I" + " | re.I" * 100_000 + ")": None,
        }, "print 'x'")

    def test_values_are_those_of_this_python(self) -> None:
        for name, value in FLAGS.items():
            # (NOFLAG is of Python 3.11)
            self.assertEqual(int(getattr(re, name, 0)), value)


class Offsets(unittest.TestCase):
    def offsets(self, literal: str) -> str:
        text = f"re.compile({literal})"
        found = site(text, 1, 12)
        assert found is not None
        self.assertEqual(len(found.offsets), len(found.pattern) + 1)
        return "|".join(text[a:b] for a, b in zip(found.offsets, found.offsets[1:]))

    def test_each_character(self) -> None:
        cases = {'r"\\d+"': "\\|d|+", "rb'''a'''": "a", '"\\\\d\\x41\\u00e9\\n\\101"': "\\\\|d|\\x41|\\u00e9|\\n|\\101",
                 'b"\\x41\\u00"': "\\x41|\\|u|0|0", '"\\d\\N{DIGIT ONE}"': "\\|d|\\N{DIGIT ONE}", "'a' r'b'": "a' r'|b",
                 "'a\\\nb'": "a\\\n|b"}
        self.assertEqual({it: self.offsets(it) for it in cases}, cases)


class Comments(unittest.TestCase):
    def ignores(self, text: str) -> Dict[int, Optional[Tuple[str, ...]]]:
        return Unit("a.py", text.encode()).ignores()

    def test_codes(self) -> None:
        both = ("RLT100", "RLT103")
        cases: Dict[str, object] = {
            "# noqa": None, "# NoQA": None, "# noqa: RLT100": ("RLT100",), "# noqa:RLT100": ("RLT100",),
            "# NOQA: RLT100,RLT103": both, "# noqa: rlt100 RLT103": both, "# noqa: RLT100, RLT103  because": both,
            "# noqa : RLT100": None, "# type: ignore # noqa: E501": ("E501",), "# noqa:  RLT100": None, "# noqa: why": None,
        }
        for comment, wanted in cases.items():
            self.assertEqual(self.ignores(f"x = 1\ny = 2  {comment}\nz = 3\n"), {2: wanted}, comment)
        for comment in ("#noqa", "#  noqa", "noqa", "# no qa"):
            self.assertEqual(self.ignores(f"x = 1\n{'' if comment == 'noqa' else 'y = 2'}  {comment}\n"), {}, comment)

    def test_what_they_hide(self) -> None:
        self.assertEqual([hides(it, "RLT100") for it in (None, ("RLT100",), ("RLT1",), ("E501",), ())],
                         [True, True, True, False, False])

    def test_strings_are_no_comments(self) -> None:
        self.assertEqual(self.ignores("x = '# noqa'\ny = '''\n# noqa\n'''\n"), {})

    def test_statements_over_several_lines(self) -> None:
        self.assertEqual(self.ignores("x = '''\na\n'''  # noqa\ny = 1\n"), {1: None, 2: None, 3: None})
        self.assertEqual(self.ignores("x = 1 + \\\n  2  # noqa\ny = 1\n"), {1: None, 2: None})
        self.assertEqual(self.ignores("f(\n  1,  # noqa: E1\n  2)\n"), {2: ("E1",)})
        self.assertEqual(self.ignores("if x:\n    # noqa\n    y = 1  # noqa: E1\nelse:\n  pass\n"), {2: None, 3: ("E1",)})

    def test_all_line_ends(self) -> None:
        for end in ("\n", "\r\n", "\r"):
            self.assertEqual(self.ignores(f"x{end}\f{end}y  # noqa{end}"), {3: None})

    def test_a_source_that_cannot_be_parsed(self) -> None:
        self.assertEqual(self.ignores("print 'x'\nprint 'y'  # noqa\nx = (\n"), {2: None})


class Hostile(unittest.TestCase):
    def test_codings(self) -> None:
        for data in (b"\xff\xfe", b"# coding: latin-1\n'\xe9'", b"# coding: ascii\n'\xe9'"):
            with self.assertRaises(SourceError):
                Unit("a.py", data)
        self.assertTrue(Unit("a.py", "# coding: idna\n'é'".encode("utf-8")).is_parsed)

    def test_what_cannot_be_parsed(self) -> None:
        for text in ("print 1", "x = \0", "'''", DEEP[1]):
            unit = Unit("a.py", text.encode())
            with self.assertRaises(Unparsed):
                self.assertIsInstance(unit.tree, ast.Module)
            self.assertFalse(unit.is_parsed)
            self.assertEqual(unit.function_at(Place(1, 1)), "")

    def test_deep_sources_end_nothing(self) -> None:
        for deep in DEEP:
            found = site(f"import re\nre.match('(a|a)*b', s, re.I)\nx = {deep}\n", 2, 10, "match")
            assert found is not None
            self.assertEqual(found.flags, re.I)
        self.assertTrue(Unit("a.py", ("x = " + " + ".join(["1"] * 900)).encode()).is_parsed)

    def test_f_strings_are_not_read(self) -> None:
        self.assertIsNone(site("re.match(f'{" + "1+" * 100_000 + "1}', s)\n", 1, 10, "match"))

    def test_long_lines_are_not_shown(self) -> None:
        unit = Unit("a.py", b"re.match('a', s)" + b" " * 20_000 + b"\n")
        self.assertEqual(unit.lines_to_show(Place(1, 10), None), ())


if __name__ == "__main__":
    unittest.main()
