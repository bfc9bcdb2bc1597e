"""Tests of `rlt server`, by sessions of the protocol; skipped where its package isn't installed."""
from __future__ import annotations

import json
import re
import subprocess
import sys
import unittest
from pathlib import Path
from typing import Any, List
from unittest import mock

from plugin_support import END, NO_PROGRAM, SECONDS, SLOW, START, Client, Session, python_with
from relint import server
from support import ROOT

PYTHON = python_with("pylsp_jsonrpc")


class Parts(unittest.TestCase):
    """Positions, paths and hovers."""

    def test_positions(self) -> None:
        lines = server.Lines("a\U0001f600b\r\nc\rd\n")
        places = [(0, 0, 0), (2, 0, 3), (3, 0, 4), (5, 1, 0), (7, 2, 0), (9, 3, 0)]
        for offset, line, character in places:
            self.assertEqual(lines.position(offset), {"line": line, "character": character})
            self.assertEqual(lines.offset({"line": line, "character": character}), offset)
        for line, character, offset in ((0, 99, 3), (7, 0, 9), (1, 5, 6)):
            self.assertEqual(lines.offset({"line": line, "character": character}), offset)

    def test_a_hover_is_never_marked_up(self) -> None:
        found = server.hover_of(["a", "```` [x](http://y)"], True)
        assert found
        self.assertEqual(found["contents"]["value"].splitlines()[::3], ["`````text", "`````"])

    def test_without_the_package(self) -> None:
        code = "import sys; sys.modules['pylsp_jsonrpc.streams'] = None; from relint.cli import main; " \
               "sys.exit(main(['server']))"
        with mock.patch.dict("os.environ", PYTHONPATH=str(ROOT / "python")):
            ran = subprocess.run([sys.executable, "-c", code], stdin=subprocess.DEVNULL, capture_output=True, timeout=SECONDS)
        self.assertEqual((ran.returncode, ran.stdout, ran.stderr.count(b"\n")), (2, b"", 1))
        self.assertIn(b"python3-pylsp-jsonrpc", ran.stderr)


@unittest.skipIf(NO_PROGRAM, NO_PROGRAM)
@unittest.skipUnless(PYTHON, "pylsp_jsonrpc isn't installed")
class Served(Client):
    """A session with the server."""

    words = (PYTHON, "-P", "-m", "relint", "server")
    capabilities = {"window": {"showDocument": {"support": True}},
                    "textDocument": {"hover": {"contentFormat": ["markdown", "plaintext"]}}}

    def test_the_open_text_is_judged_and_not_the_file(self) -> None:
        found = self.open(SLOW)
        self.assertEqual([(it["code"], it["severity"], it["range"]) for it in found],
                         [("RLT100", 1, {"start": START, "end": END})])
        self.assertRegex(found[0]["message"], "^exponential: a text of [0-9]+ characters keeps this search busy for ")
        self.assertEqual(self.path.read_text(), "")
        self.assertEqual(self.change(SLOW.replace("^(\\w+,?)*$", "a+")), [])
        two = {"start": {"line": 3, "character": 0}, "end": {"line": 3, "character": 0}}
        self.change(SLOW)
        more = self.change('re.search(r"(a|a)*b", "")\nre.search("(?=ab)b")\nX = re.compile("a*a*b")\nX.match("")\n',
                           range=two)
        self.assertEqual(self.codes(more), [("RLT100", 1), ("RLT100", 1), ("RLT201", 3), ("RLT102", 4)])

    def test_typing_is_judged_after_a_rest(self) -> None:
        self.open(SLOW)
        for size in range(1, 20):
            self.session.write("textDocument/didChange", {
                "textDocument": {"uri": self.uri, "version": size}, "contentChanges": [{"text": SLOW + "#" * size}]})
        found = self.session.method("textDocument/publishDiagnostics")
        self.assertEqual((found["version"], len(found["diagnostics"])), (19, 1))
        self.session.write("textDocument/didClose", {"textDocument": {"uri": self.uri}})
        self.assertEqual(self.session.method("textDocument/publishDiagnostics"), {"uri": self.uri, "diagnostics": []})

    def test_the_cursor(self) -> None:
        self.open(SLOW)
        shown = self.hover(1, 28).splitlines()
        self.assertEqual((shown[0], shown[-1]), ("```text", "```"))
        self.assertEqual(shown[1], "exponential in search, exponential in match, exponential in fullmatch")
        whole = "\n".join(shown)
        for it in ("RLT100 exponential: a text of", "way 2", "try:  python3 -I -c", "fix:  r"):
            self.assertIn(it, whole)
        self.assertIn("quadratic in search", self.hover(2, 20))
        self.assertEqual(self.hover(0, 2), "")
        self.assertEqual(self.hover(2, 2), "")

    def test_a_fix_is_put_in_place(self) -> None:
        self.open("")
        for text in (SLOW, "\ufeff" + SLOW.replace("\n", "\r\n"), SLOW.replace('r"^(', 'r"^" r"(')):
            self.change(text)
            found = self.actions()
            self.assertEqual([it["title"][:10] for it in found], ["rlt: fix: ", "rlt: accep", "rlt: expla"])
            lines = server.Lines(text)
            for it in reversed(found[0]["edit"]["changes"][self.uri]):
                start, end = (lines.offset(it["range"][name]) for name in ("start", "end"))
                text = text[:start] + it["newText"] + text[end:]
            self.assertEqual(self.change(text), [])

    def command(self, action: Any, *more: str) -> Any:
        """Does the command of an action."""
        command = action["command"]
        return self.session.ask("workspace/executeCommand", {"command": command["command"],
                                                             "arguments": [*command["arguments"], *more]})

    def test_a_finding_is_accepted(self) -> None:
        self.put("relint.toml", 'accepted = "ours.json"\n')
        self.open(SLOW)
        self.command(self.actions()[1], "it is short")
        self.assertEqual(self.published(), [])
        row = json.loads((self.folder / "ours.json").read_text())["accepted"][0]
        self.assertEqual((row["path"], row["class"], row["reason"]), ("app.py", "exponential", "it is short"))
        self.change(SLOW.replace("$", "x$"))
        self.command(self.actions()[1])
        self.assertIn("accepted in the editor", (self.folder / "ours.json").read_text())

    def test_what_is_not_judged_is_accepted_too(self) -> None:
        self.open(SLOW.replace("^(\\w+,?)*$", "(?=ab)b(\\w+,?)*"))
        actions = self.actions()
        self.assertEqual([it["title"] for it in actions], ["rlt: accept with a reason (refused)", "rlt: explain RLT201"])
        self.command(actions[0])
        self.assertEqual(self.published(), [])

    def test_a_finding_that_is_gone_is_not_accepted(self) -> None:
        self.open(SLOW)
        action = self.actions()[1]
        self.change("")
        self.assertIsNone(self.command(action))
        self.assertFalse((self.folder / "relint-accepted.json").exists())

    def test_a_rule_is_explained(self) -> None:
        self.open(SLOW)
        command = self.actions()[2]["command"]
        self.session.write("workspace/executeCommand", {"command": command["command"], "arguments": command["arguments"]}, 77)
        shown = self.session.method("window/showDocument")
        rows = Path(shown["uri"][len("file://"):]).read_text().splitlines()
        self.assertTrue(re.match("## .*RLT100", rows[shown["selection"]["start"]["line"]]))

    def test_configuration_and_its_mistakes(self) -> None:
        self.put("pyproject.toml", "[tool.relint]\nmax-degree = 1\n")
        self.assertEqual(self.codes(self.open(SLOW)), [("RLT100", 1), ("RLT102", 2)])
        self.put("pyproject.toml", "[tool.relint]\nwarn-degree = 1\n")
        self.session.write("textDocument/didSave", {"textDocument": {"uri": self.uri}})
        self.assertEqual(self.codes(self.published()), [("RLT100", 1), ("RLT102", 3)])
        self.put("pyproject.toml", "[tool.relint]\nmax-degre = 1\n")
        found = self.change(SLOW + "\n")
        self.assertEqual(self.codes(found), [("RLT203", 1)])
        self.assertIn("there is no key 'max-degre'", found[0]["message"])
        self.put("pyproject.toml", '[tool.relint]\nexclude = ["app.py"]\n')
        self.assertEqual(self.change(SLOW), [])

    def test_a_configuration_that_is_wrong_does_not_end_the_server(self) -> None:
        self.put("pyproject.toml", "[tool.relint]\nmax-degre = 1\n")
        other = self.put("other.toml", "max-degree = 1\n")
        self.session.end()
        self.session = Session([*self.words, f"--config={other}"], cwd=self.folder, env=self.environment)
        self.addCleanup(self.session.end)
        self.session.ask("initialize", {"capabilities": {}})
        self.assertEqual(self.codes(self.open(SLOW)), [("RLT100", 1), ("RLT102", 2)])

    def test_a_program_that_is_missing_is_told(self) -> None:
        self.session.end()
        environment = {name: it for name, it in self.environment.items() if name != "RELINT_ASK"}
        self.session = Session(self.words, cwd=self.folder, env=environment)
        self.addCleanup(self.session.end)
        self.session.ask("initialize", {"capabilities": {}})
        found = self.open(SLOW)
        self.assertEqual(self.codes(found), [("RLT203", 3), ("RLT100", 1)])
        self.assertIn("relint-ask", found[0]["message"])

    def test_uses_in_other_files_count(self) -> None:
        text = 'import re\nX = re.compile("a*a*a*b")\nX.match("")\n'
        self.put("pyproject.toml", "[tool.relint]\nmax-degree = 3\n")
        self.assertEqual(self.codes(self.open(text)), [("RLT103", 4)])
        self.put("other.py", "import app\napp.X.search('')\n")
        # (other files are looked at anew once one is saved)
        self.session.write("textDocument/didSave", {"textDocument": {"uri": self.uri}})
        self.assertEqual(self.codes(self.published()), [("RLT104", 2)])
        for size in (1, 2):
            self.assertEqual(self.codes(self.change(text + "\n" * size)), [("RLT104", 2)])

    def test_other_files_are_read_once(self) -> None:
        self.put("relint.toml", "")
        for number in range(200):
            self.put(f"p{number}.py", f"import app\n\n\ndef f{number}():\n    app.OTHER = 1\n" * 50)
        text = 'import re\nOTHER = "b"\nPART = "a*a*a*" + OTHER\nX = re.compile(PART)\nX.match("")\n'
        self.open(text)
        before = self.time()
        self.change(text + "\n")
        self.assertLess(self.time() - before, 0.25)

    def test_hostile_texts_are_answered_and_never_run(self) -> None:
        self.open("\ud800")
        run = f"import re\n__import__('os').mkdir({str(self.folder / 'ran')!r})\nre.search(r'(a|a)*b', '')\n"
        control = "import re\rre.search('(a|a)*b\x1b[2J', t)"
        texts: List[str] = ["re.search('" + "(" * 5000, "\0", 'import re\nre.search("\\N{', control, "\ufeff" + SLOW,
                            "(" * 100_000, run]
        for text in texts:
            self.change(text)
            self.hover(1, 23)
        self.assertEqual(self.codes(self.change(SLOW)), [("RLT100", 1)])
        self.assertFalse((self.folder / "ran").exists())

    def test_a_thousand_lines_take_little_time(self) -> None:
        body = "".join(f"def f{it}(x):\n    y = x\n    if y:\n        return re.search(r'a{it}+b', y)\n" for it in range(250))
        self.open(SLOW + body)
        before = self.time()
        for size in range(1, 6):
            self.assertEqual(len(self.change(SLOW + body + "#" * size)), 1)
        self.assertLess(self.time() - before, 5 * 0.4)

    def time(self) -> float:
        """The processor time of the server, and of the processes that it has waited for."""
        fields = Path(f"/proc/{self.session.process.pid}/stat").read_text().rpartition(")")[2].split()
        return sum(map(int, fields[11:15])) / 100

    def test_the_end(self) -> None:
        self.open(SLOW)
        self.session.ask("shutdown", None)
        self.session.write("exit", None)
        self.assertEqual(self.session.process.wait(SECONDS), 0)


if __name__ == "__main__":
    unittest.main()
