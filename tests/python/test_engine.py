"""Runs of the two programs: shares, limits of time, reports and answers that others wrote."""
from __future__ import annotations

import json
import os
import sys
import tempfile
import time
import unittest
from pathlib import Path
from typing import Any, Dict, List, Tuple
from unittest import mock

from engine_support import folder, missing
from relint.base.model import Place, Text
from relint.base.words import CAUSES
from relint.engine import ask, engine, program
from relint.engine.ask import LATE, Asker, question
from relint.engine.engine import Report, ReportError, judge, read_report, read_text
from relint.engine.program import ProgramError, located, output_of
from relint.options import Options

NO_PROGRAM = missing("relint")
NO_ASK = missing("relint-ask")
FOREVER = float("inf")
ENTRY = {"path": "a.py", "kind": "degree", "degree": 2, "line": 1, "column": 2, "call": "search",
         "family": {"heads": ['r"a"', '"\\x00"'], "pumps": ['"\\u1234\\n"']}, "dropped": [], "merged": [], "passed": []}
# Answers "pattern" questions: "slow" never, "end" by ending, "long" without end; others with their pattern.
SERVICE = """#!{python}
import json, sys, time
for line in sys.stdin:
    asked = json.loads(line)
    it = asked.get("pattern")
    if it == "slow":
        time.sleep(60)
    if it == "end":
        sys.exit(5)
    print(json.dumps({{"answer": asked["ask"], "it": it}}), flush=True)
"""


def put(path: Path, text: str) -> str:
    path.parent.mkdir(parents=True, exist_ok=True)
    path.write_text(text, encoding="utf-8")
    path.chmod(0o755)
    return str(path)


def report(*entries: Dict[str, Any], **more: Any) -> bytes:
    return json.dumps({"entries": list(entries), "findings": 0, "version": 2, **more}).encode()


class Found(unittest.TestCase):
    """Which program runs: the one that is named or installed, never one that lies about."""

    def setUp(self) -> None:
        temporary = tempfile.TemporaryDirectory()
        self.addCleanup(temporary.cleanup)
        self.top = Path(temporary.name).resolve()
        self.packages = self.top / "lib" / "site-packages"
        package = mock.patch.object(program, "_package", lambda: str(self.packages / "relint"))
        package.start()
        self.addCleanup(package.stop)
        for variables in (mock.patch.dict(os.environ, PATH=os.defpath), mock.patch.dict(program._located, clear=True)):
            variables.start()
            self.addCleanup(variables.stop)
        os.environ.pop("RELINT", None)

    def test_the_named_one_wins(self) -> None:
        os.environ["PATH"] = os.path.dirname(put(self.top / "other" / "relint", ""))
        self.assertEqual(located("relint"), str(self.top / "other" / "relint"))
        os.environ["RELINT"] = put(self.top / "mine", "")
        self.assertEqual(located("relint"), str(self.top / "mine"))
        os.environ["RELINT"] = str(self.top / "nosuch")
        self.assertRaisesRegex(ProgramError, "^RELINT names .*nosuch, which can't be run", located, "relint")

    def test_the_installed_one_has_the_size_that_it_had(self) -> None:
        found = put(self.top / "bin" / "relint", "1234")
        note = self.packages / "relint-2.0.0.dist-info" / "RECORD"
        put(note, "relint/cli.py,sha256=x,7\n../../bin/relint,sha256=x,4\n")
        self.assertEqual(located("relint"), found)
        program._located.clear()
        put(note, "../../bin/relint,sha256=x,5\n")
        self.assertRaisesRegex(ProgramError, "isn't the program that was installed", located, "relint")

    def test_that_of_a_clone_is_the_one_that_its_release_names(self) -> None:
        top = self.packages.parent
        put(top / "crates.txt", "")
        self.assertRaisesRegex(ProgramError, "isn't built", located, "relint")
        built = put(top / "crates" / "relint" / "out" / "relint", "built")
        self.assertEqual(located("relint"), built)
        program._located.clear()
        machine = program.MACHINES[os.uname().machine]
        found = put(top / "release" / machine / "relint", "1234")
        put(top / "release" / "INFO", f"version 2.0.0\nprogram-{machine} {program._sum(found)}\n")
        self.assertEqual(located("relint"), found)
        program._located.clear()
        put(top / "release" / machine / "relint", "1235")
        self.assertRaisesRegex(ProgramError, "isn't the file that release/INFO names", located, "relint")

    def test_an_empty_or_relative_entry_of_the_path(self) -> None:
        with folder({}) as here:
            put(here / "relint", "#!/bin/sh\n")
            put(here / "bin" / "relint", "#!/bin/sh\n")
            for entries in ("", ".", "bin", ":", "bin:.:"):
                os.environ["PATH"] = entries
                self.assertRaises(ProgramError, located, "relint")

    def test_limits_of_a_run(self) -> None:
        self.assertEqual(output_of(["/bin/echo", "a"], 10, 10), (0, b"a\n"))
        self.assertRaisesRegex(ProgramError, "took more than", output_of, ["/bin/sleep", "60"], 0.1, 10)
        self.assertRaisesRegex(ProgramError, "wrote more than", output_of, ["/bin/cat", "/dev/zero"], 10, 10)
        self.assertRaisesRegex(ProgramError, "can't be run", output_of, ["/none"], 10, 10)
        # (the limit is set once the program runs)
        status, said = output_of(["/bin/sh", "-c", "sleep 0.5; ulimit -v"], 60, 100)
        self.assertEqual((status, said), (0, b"%d\n" % (program.MOST_MEMORY // 1024)))
        self.assertEqual((program.MOST_MEMORY, engine.SECONDS_OF_A_FILE), (4 << 30, 20.0))


class Reports(unittest.TestCase):
    """Reports that anyone wrote."""

    def refused(self, data: bytes, why: str = "") -> None:
        self.assertRaisesRegex(ReportError, why, read_report, [data])

    def test_entries(self) -> None:
        found = read_report([report(ENTRY, {"path": "b.py", "kind": "refused", "cause": "not-utf8", "line": 1, "column": 1})])
        first, second = found.entries
        self.assertEqual((first.place, first.call, first.suggest), (Place(1, 2), "search", None))
        assert first.verdict and first.verdict.family
        self.assertEqual(first.verdict.family.text(2), "aሴ\nሴ\n\0")
        self.assertEqual((second.cause, second.call, second.verdict), ("not-utf8", None, None))
        bound = {"degree": 1, "law": "one-degree-more"}
        undecided = {**ENTRY, "kind": "undecided", "limit": "pairs", "over": 600, "at-most": bound}
        verdict = read_report([report(undecided)]).entries[0].verdict
        assert verdict and verdict.at_most
        self.assertEqual((verdict.limit, verdict.at_most.degree), ("pairs", 1))
        self.assertEqual((verdict.is_open(2), verdict.is_open(0)), (False, True))

    def test_texts(self) -> None:
        for quoted, value in (('r"a\\b"', "a\\b"), ('"\\\\\\"\\n"', '\\"\n'), ('br"\xff"', b"\xff"), ('b"\\xff"', b"\xff"),
                              ('"\\U0001f600"', "\U0001f600")):
            self.assertEqual(read_text(quoted), value)
        for wrong in ("a", 'r"a', "'a'", '"\\q"', 'f"a"', 'b"\\u1234"', '"\\UFFFFFFFF"', '"\\Uffffffff"', 3, None, 'r"a"b"'):
            self.assertRaises(ReportError, read_text, wrong)

    def test_other_json(self) -> None:
        for data in (b"", b"{}", b"[]", b"{", b'{"entries": []}', b'{"version": 2}', b'{"entries": 1, "version": 2}', b"\xff",
                     b'{"entries": [], "version": 3}', b'{"entries": [], "version": 2} 1', b'{[]: 1}',
                     b'{"entries": [1], "version": 2}', b'{"entries": [{}, ], "version": 2}', b"[" * 100_000,
                     b'{"a":' * 100_000, b'{"entries":[' + b"[" * 9_000):
            self.refused(data)
        self.refused(report(ENTRY, x=1.5), "number")
        wrong: List[Dict[str, Any]] = [{"version": True}, {"version": "2"}, {"findings": "1"}, {"findings": -1},
                                       {"refused": [1]}]
        for more in wrong:
            self.refused(report(ENTRY, **more), "unknown version|something else than a number")
        self.refused(report(ENTRY).replace(b'"line": 1', b'"line": ' + b"1" * 5000), "number")
        self.refused(b"[" * 200_000 + b"]" * 200_000, "lists and objects")

    def test_values(self) -> None:
        changes: List[Dict[str, Any]] = [
            {"path": ""}, {"path": "a\0"}, {"path": "\ud800"}, {"path": 1}, {"kind": "x"}, {"degree": -1}, {"degree": True},
            {"line": 0}, {"call": "x"}, {"family": {}}, {"family": {"heads": ['r""'], "pumps": ['r""']}}, {"dropped": 1},
            {"family": {"heads": ['r""', 'br""'], "pumps": ['r""']}}, {"suggest": "a"}, {"becomes": {"kind": "x"}},
            {"kind": "refused", "cause": "\x1b[1m"}, {"kind": "undecided", "limit": "Pairs!", "over": 1},
        ]
        for change in changes:
            self.refused(report({**ENTRY, **change}), "entry 1 of the report")

    def test_parts(self) -> None:
        data = report({**ENTRY, "path": "\u00fc\U0001f600.py"}, *[ENTRY] * 3)
        data = data.replace(b", ", b" , \n\t").replace(b"\\u00fc", b"\xc3\xbc")
        whole = read_report([data])
        self.assertEqual((len(whole.entries), whole.entries[0].path), (4, "\xfc\U0001f600.py"))
        wrong = [data[:-1], data + b" 1", data.replace(b'"version": 2', b'"version": 21'), data[:-9] + b"\xc3" + data[-9:],
                 data.replace(b"\xc3\xbc", b"\xc3"), data.replace(b'"line": 1', b'"line": 1.5')]
        for size in (1, 2, 3, 7, 100):
            self.assertEqual(read_report([data[at:at + size] for at in range(0, len(data), size)]), whole)
            for other in wrong:
                with self.assertRaises(ReportError):
                    read_report([other[at:at + size] for at in range(0, len(other), size)])

    def test_sizes(self) -> None:
        with mock.patch.object(engine, "MOST_BYTES", 10):
            self.refused(report(ENTRY), "more than 10 bytes")
        with mock.patch.object(engine, "MOST_OF_A_VALUE", 1000):
            long = [b'{"version":"'] + [b"a" * 100] * 20
            self.assertRaisesRegex(ReportError, "a value of more than 1,000", read_report, long)

    def test_time(self) -> None:
        found = read_report([report(*[ENTRY] * 1000)], time.monotonic() - 1)
        self.assertEqual(found, Report((), True))
        with mock.patch.object(engine, "MOST_ENTRIES", 10):
            self.refused(report(*[ENTRY] * 11), "more than 10 entries")


class Judging(unittest.TestCase):
    """Runs of relint check."""

    @unittest.skipIf(NO_PROGRAM, NO_PROGRAM)
    def test_files_in_their_order(self) -> None:
        files: Dict[str, object] = {f"f{it:03}.py": f"import re\nre.search('a{{{it}}}', s)\n" for it in range(100)}
        files["f050.py"] = b"\xff"
        with folder(files):
            found = judge([*files, "none.py"], Options(jobs=4), FOREVER)
        self.assertEqual([it.path for it in found.entries], [*files, "none.py"])
        self.assertEqual([(it.path, it.why, it.fails) for it in found.not_looked], [
            ("f050.py", CAUSES["not-utf8"], False), ("none.py", CAUSES["unreadable"], True)])
        self.assertEqual((found.slow, found.late), ((), False))

    def judged(self, script: str, files: List[str], deadline: float = FOREVER) -> engine.Judged:
        with folder({}) as here:
            with mock.patch.dict(os.environ, RELINT=put(here / "program", f"#!/bin/sh\nfor last; do :; done\n{script}\n")):
                return judge(files, Options(jobs=2), deadline)

    def test_a_file_that_takes_too_long(self) -> None:
        script = r"""case "$*" in *slow*) exec sleep 60 ;; esac
printf '{"entries":[{"path":"%s","kind":"unreadable"}],"version":2}' "$last" """
        with mock.patch.object(engine, "SECONDS_OF_A_FILE", 2.0):
            found = self.judged(script, ["a", "b", "slow", "c"])
        self.assertEqual(([it.path for it in found.entries], found.slow, found.late), (["a", "b", "c"], ("slow",), False))
        begun = time.monotonic()
        found = self.judged(script, ["a", "slow"], time.monotonic() + 1)
        self.assertEqual((found.entries, found.slow, found.left, found.late), ((), (), ("a", "slow"), True))
        self.assertLess(time.monotonic() - begun, 10)

    def test_another_program(self) -> None:
        for script in ("exit 2", "echo a", "exit 0", "exit 127"):
            self.assertRaises(ProgramError, self.judged, script, ["a"])

    def test_a_program_without_memory(self) -> None:
        found = self.judged("exit 5", ["a", "b"])
        self.assertEqual((found.entries, found.slow), ((), ("a", "b")))


class Asking(unittest.TestCase):
    """Questions to relint-ask."""

    def asker(self, text: str = SERVICE.format(python=sys.executable), **more: Any) -> Asker:
        made = tempfile.TemporaryDirectory()
        self.addCleanup(made.cleanup)
        patch = mock.patch.dict(os.environ, RELINT_ASK=put(Path(made.name) / "ask", text))
        patch.start()
        self.addCleanup(patch.stop)
        asker = Asker(Options(jobs=3), **more)
        self.addCleanup(asker.close)
        return asker

    def patterns(self, answers: List[Any]) -> List[Any]:
        return [it.get("it", it["answer"]) for it in answers]

    def test_many_questions_and_what_is_kept(self) -> None:
        asker = self.asker()
        asked = [question("class", str(it), 0) for it in range(500)]
        self.assertEqual(self.patterns(asker.ask_all([*asked, *asked[:9]])), [*map(str, range(500)), *map(str, range(9))])
        self.assertEqual(asker.count, 500)
        asker.ask_all(asked)
        self.assertEqual(asker.count, 500)

    def test_what_is_forgotten_is_answered_first(self) -> None:
        asker = self.asker()
        asker.ask_all([question("class", "a", 0)])
        with mock.patch.object(ask, "MOST_KEPT", 10):
            self.assertEqual(self.patterns(asker.ask_all([question("class", it, 0) for it in "ab"])), ["a", "b"])

    def test_questions_that_take_too_long_or_end_the_process(self) -> None:
        asker = self.asker(seconds=4)
        asked = [question("class", it, 0) for it in ("a", "slow", "b", "end", "c", "\ud800", "x" * 200_000)]
        found = asker.ask_all(asked)
        self.assertEqual(self.patterns(found), ["a", "late", "b", "late", "c", "\ud800", "x" * 200_000])
        self.assertEqual((asker.ask(asked[1]), asker.count), (LATE, 7))

    def test_a_deadline(self) -> None:
        asker = self.asker(deadline=time.monotonic() + 2)
        self.assertEqual(self.patterns(asker.ask_all([question("class", it, 0) for it in ("slow", "a")])), ["late", "late"])
        self.assertTrue(asker.late)

    def test_no_program(self) -> None:
        asker = Asker(Options())
        with mock.patch.dict(os.environ, PATH="/none"), mock.patch.dict(program._located, clear=True):
            with mock.patch.object(program, "_package", lambda: "/none/python/relint"):
                os.environ.pop("RELINT_ASK", None)
                self.assertEqual(asker.verdicts([("a", 0, "search")]), [None])
        self.assertIn("isn't on the PATH", asker.missing)

    def test_another_program(self) -> None:
        for text in ("#!/bin/sh\nexit 0\n", "#!/bin/sh\necho x\n", "#!/bin/sh\nexec yes\n"):
            self.assertRaisesRegex(ProgramError, "isn't relint-ask", self.asker(text).ask, question("class", "a", 0))

    @unittest.skipIf(NO_ASK, NO_ASK)
    def test_classes(self) -> None:
        asker = Asker(Options())
        self.addCleanup(asker.close)
        pairs: List[Tuple[Text, int, str]] = [
            ("(a|a)*b", 0, "search"), (b"a*A*b", 2, "match"), ("(?=a)(b)\\1", 0, "search"), ("a", 1 << 20, "search"),
        ]
        first, second, third, fourth = asker.verdicts(pairs)
        assert first and second and second.family
        self.assertEqual((first.kind, second.degree, type(second.family.heads[0])), ("exponential", 2, bytes))
        self.assertEqual((third, fourth), (None, None))


if __name__ == "__main__":
    unittest.main()
