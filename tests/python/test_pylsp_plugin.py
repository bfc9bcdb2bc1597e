"""Tests of the plugin of python-lsp-server, by a session with the server itself; skipped where it isn't installed."""
from __future__ import annotations

import shutil
import unittest

from plugin_support import END, NO_PROGRAM, SLOW, START, Client

SERVER = shutil.which("pylsp")
OTHERS = ("autopep8", "flake8", "jedi_completion", "mccabe", "preload", "pycodestyle", "pydocstyle", "pyflakes", "pylint",
          "rope_completion", "yapf")


@unittest.skipIf(NO_PROGRAM, NO_PROGRAM)
@unittest.skipUnless(SERVER, "python-lsp-server (pylsp) isn't installed")
class Plugin(Client):
    """A session with the server that has the plugin."""

    words = (str(SERVER),)
    settings = {"pylsp": {"plugins": {it: {"enabled": False} for it in OTHERS}}}

    def test_the_open_text_is_judged_and_not_the_file(self) -> None:
        found = self.open(SLOW)
        self.assertEqual([(it["code"], it["severity"], it["range"]) for it in found],
                         [("RLT100", 1, {"start": START, "end": END})])
        self.assertEqual(self.path.read_text(), "")
        self.assertEqual(self.change(SLOW.replace("^(\\w+,?)*$", "a+")), [])

    def test_the_cursor(self) -> None:
        self.open(SLOW)
        shown = self.hover(1, 28)
        self.assertIn("RLT100 exponential: a text of", shown)
        self.assertIn("way 2", shown)
        self.assertEqual(self.hover(0, 2), "")

    def test_actions(self) -> None:
        self.open(SLOW)
        fix, accept, explain = self.actions()
        self.assertTrue(fix["edit"]["changes"][self.uri])
        for action, said in ((explain, "RLT100"), (accept, "accepted in")):
            command = {name: action["command"][name] for name in ("command", "arguments")}
            self.session.write("workspace/executeCommand", command, 77)
            self.assertIn(said, self.session.method("window/showMessage")["message"])
        self.assertIn("accepted in the editor", (self.folder / "relint-accepted.json").read_text())
        self.assertEqual(self.change(SLOW + "\n"), [])

    def test_a_mistake_of_the_configuration_is_told(self) -> None:
        self.put("pyproject.toml", "[tool.relint]\nmax-degre = 1\n")
        found = self.open(SLOW)
        self.assertEqual(self.codes(found), [("RLT203", 1)])
        self.assertIn("there is no key 'max-degre'", found[0]["message"])

    def test_hostile_texts_are_answered(self) -> None:
        self.open("\ud800")
        for text in ("re.search('" + "(" * 5000, "\0", "import re\rre.search('(a|a)*b\x1b[2J', t)"):
            self.change(text)
        self.assertEqual(self.codes(self.change(SLOW)), [("RLT100", 1)])


if __name__ == "__main__":
    unittest.main()
