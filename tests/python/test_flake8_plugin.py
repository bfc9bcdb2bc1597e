"""Tests of the plugin of flake8, through flake8 itself; skipped where it isn't installed."""
from __future__ import annotations

import shutil
import subprocess
import sys
import unittest
from typing import List, Tuple

from plugin_support import NO_PROGRAM, SECONDS, Installed
from support import ROOT

FLAKE8 = shutil.which("flake8")
SLOW = 'import re\nROWS = re.compile(r"(a|a)*b")\nTEXT = "\u00e9", re.search(r"(b|b)*c", "x")\n'
FOUND = [("app.py:2:19", "RLT100"), ("app.py:3:23", "RLT100")]


@unittest.skipIf(NO_PROGRAM, NO_PROGRAM)
@unittest.skipUnless(FLAKE8, "flake8 isn't installed")
class Flake8(Installed):
    """A project, and flake8 with the plugin."""

    def flake8(self, *words: str, given: str = "") -> Tuple[int, str]:
        """Runs flake8 in the project; returns its status and what it wrote."""
        ran = subprocess.run([str(FLAKE8), *words], cwd=self.folder, env=self.environment, input=given, text=True,
                             stdout=subprocess.PIPE, stderr=subprocess.STDOUT, timeout=SECONDS)
        return ran.returncode, ran.stdout

    def codes(self, *words: str, given: str = "") -> List[Tuple[str, str]]:
        """The place and the code of each line that flake8 writes."""
        lines = self.flake8(*words, given=given)[1].splitlines()
        return [(it.split(": ")[0], it.split(": ")[1].split()[0]) for it in lines]

    def test_findings_have_their_place_and_code(self) -> None:
        self.put("app.py", SLOW)
        status, said = self.flake8("app.py")
        self.assertEqual(status, 1)
        self.assertRegex(said, r"^app.py:2:19: RLT100 exponential: a text of [0-9]+ characters keeps this search busy for ")
        self.assertEqual(self.codes("app.py"), FOUND)

    def test_several_files_at_a_time(self) -> None:
        for name in ("one.py", "two.py", "three.py"):
            self.put(name, SLOW)
        self.assertEqual(len(self.codes("--jobs=2", ".")), 6)

    def test_flake8_leaves_codes_out(self) -> None:
        long = 'LONG = re.compile(r"""(a|a)*\n+b""")  # noqa: RLT1\n'
        self.put("app.py", SLOW.replace('b")', 'b")  # noqa: RLT100') + long)
        self.assertEqual(self.codes("app.py"), FOUND[1:])
        self.assertEqual(len(self.codes("--disable-noqa", "app.py")), 3)
        self.put("app.py", SLOW)
        self.assertEqual(self.flake8("--per-file-ignores=app.py:RLT", "app.py"), (0, ""))
        self.assertEqual(self.flake8("--extend-ignore=RLT100", "app.py"), (0, ""))
        self.assertEqual(self.codes("--select=RLT1", "app.py"), FOUND)

    def test_standard_input_is_judged_in_place_of_the_file(self) -> None:
        self.put("app.py", "")
        self.assertEqual(self.codes("--stdin-display-name=app.py", "-", given=SLOW), FOUND)
        self.assertEqual([it for _, it in self.codes("-", given=SLOW)], ["RLT100", "RLT100"])

    def test_the_configuration_counts(self) -> None:
        self.put("app.py", 'import re\nEND = re.compile(r"\\s+$")\nBACK = re.compile(r"(a)\\1")\n')
        cases = [("", []), ("max-degree = 1", [("app.py:2:18", "RLT102")]), ("warn-degree = 1", []),
                 ("strict = true", [("app.py:3:19", "RLT201")]), ('max-degree = 1\nexclude = ["app.py"]', [])]
        for said, found in cases:
            self.put("pyproject.toml", f"[tool.relint]\n{said}\n")
            self.assertEqual(self.codes("app.py"), found, said)

    def test_a_file_that_is_refused(self) -> None:
        self.put("app.py", "# coding: latin-1\nimport re\n")
        self.assertEqual(self.codes("--select=RLT", "app.py"), [("app.py:1:11", "RLT202")])

    def test_a_configuration_that_cannot_be_used_is_never_green(self) -> None:
        self.put("app.py", SLOW)
        self.put("two.py", SLOW)
        self.put("pyproject.toml", "[tool.relint]\nmax-degre = 1\n")
        words = "RLT203 not judged: pyproject.toml: there is no key 'max-degre'; did you mean max-degree?"
        status, said = self.flake8("--jobs=2", "app.py", "two.py")
        self.assertEqual((status, sorted(said.splitlines())), (1, [f"app.py:1:1: {words}", f"two.py:1:1: {words}"]))

    def test_a_program_that_is_not_there_ends_flake8(self) -> None:
        self.put("app.py", "")
        self.environment["RELINT"] = "/nosuch/relint"
        status, said = self.flake8("app.py")
        self.assertEqual((status, said.splitlines()[-1][:30]), (1, "relint: RELINT names /nosuch/r"))

    def test_what_is_accepted(self) -> None:
        self.put("app.py", SLOW)
        subprocess.run([sys.executable, "-P", "-m", "relint", "accept", "--all", "--reason", "ours", "app.py"],
                       cwd=self.folder, env=self.environment, check=True, timeout=SECONDS, stdout=subprocess.PIPE)
        self.assertEqual(self.flake8("app.py"), (0, ""))
        self.put("app.py", SLOW.replace("(b|b)*c", "(b|b)*d"))
        self.assertEqual(self.codes("app.py"), FOUND[1:])

    def test_uses_count(self) -> None:
        self.put("app.py", 'import re\nX = re.compile(r"a*a*b")\nX.match("")\n')
        self.assertEqual(self.flake8("app.py"), (0, ""))
        self.put("other.py", "import app\napp.X.search('')\n")
        self.assertEqual(self.codes("app.py"), [("app.py:2:16", "RLT103")])

    def test_flake8_is_not_imported_without_it(self) -> None:
        code = "import sys, relint.flake8_plugin; print([it for it in sys.modules if it.startswith(('flake8', 'pylsp'))])"
        ran = subprocess.run([sys.executable, "-c", code], env={**self.environment, "PYTHONPATH": str(ROOT / "python")},
                             stdout=subprocess.PIPE, text=True, timeout=SECONDS)
        self.assertEqual(ran.stdout, "[]\n")


if __name__ == "__main__":
    unittest.main()
