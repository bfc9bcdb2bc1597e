"""The path of a team, from the first look to a required check, in a scratch repository."""
from __future__ import annotations

import json
import os
import subprocess
import unittest
from pathlib import Path
from typing import List, Tuple

from engine_support import folder, missing
from screens_support import Ran, rlt

WHY = missing("relint", "relint-ask")
OLD = 'import re\n\nROW = re.compile(r"(\\w+\\s?)*$")\n'
CONFIG = '[tool.relint]\npaths = ["src"]\nexclude = ["generated"]\n'
FILES = {
    "pyproject.toml": CONFIG, "src/rows.py": OLD, "src/dates.py": 'import re\n\nDATE = re.compile(r"\\d{4}-\\d\\d")\n',
    "src/generated/tables.py": 'import re\nre.search(r"(a|a)*b", "")\n', "src/notes.ipynb": "{}",
}


def git(*words: str) -> str:
    """Runs git in the current folder."""
    named = ["-c", "user.name=a", "-c", "user.email=a@example.org", "-c", "commit.gpgsign=false"]
    return subprocess.run(["git", *named, *words], check=True, stdout=subprocess.PIPE).stdout.decode()


def heads(ran: Ran) -> List[str]:
    """The places and rules of the findings of a run."""
    return [" ".join(it.split()[:2]) for it in ran.out.splitlines() if ": RLT1" in it]


def check(*words: str) -> Ran:
    """A run of `rlt check` with a line a finding."""
    return rlt("check", "--format=concise", *words)


def changed(*words: str) -> Tuple[int, List[str]]:
    """The status of the required check of a change, and its findings."""
    git("add", "-A")
    ran = check("--baseline-commit=main", "--locked", *words)
    return ran.status, heads(ran)


@unittest.skipIf(WHY, WHY)
class Team(unittest.TestCase):
    """Each step needs those before it."""

    def test_from_the_first_look_to_a_required_check(self) -> None:
        with folder(FILES):
            git("init", "-q", "-b", "main", ".")
            self.first_look()
            self.accept_what_is_there()
            git("checkout", "-q", "-b", "change")
            self.changes()
            self.what_a_change_writes_about_itself()
            self.a_maintainer_accepts()

    def first_look(self) -> None:
        """The configuration says what is looked at, and what isn't is said."""
        ran = check()
        self.assertEqual((ran.status, ran.err, heads(ran)), (1, "", ["src/rows.py:3:18: RLT100"]))
        self.assertIn("configuration: pyproject.toml (paths, exclude", ran.out)

    def accept_what_is_there(self) -> None:
        """What is there is accepted once, and the check passes from then on."""
        self.assertEqual(rlt("accept", "--all", "--reason=known on the first day").out.splitlines()[-1],
                         "relint-accepted.json: 1 accepted, +1")
        ran = check()
        self.assertEqual((ran.status, heads(ran)), (0, []))
        self.assertIn("hidden: 1 accepted by relint-accepted.json", ran.out)
        git("add", "-A")
        git("commit", "-q", "-m", "first")

    def changes(self) -> None:
        """A change that moves a finding passes; one that adds or edits one fails; so does a copy."""
        Path("src/rows.py").write_text("# more\n\n" + OLD)
        self.assertEqual(changed(), (0, []))
        os.rename("src/rows.py", "src/moved.py")
        self.assertEqual(changed(), (0, []))
        Path("src/copy.py").write_text(OLD)
        self.assertEqual(changed()[0], 1)
        os.remove("src/copy.py")
        Path("src/moved.py").write_text(OLD.replace(r"(\w+\s?)*$", r"(\w*\s?)*x$"))
        self.assertEqual(changed(), (1, ["src/moved.py:3:18: RLT100"]))
        git("reset", "-q", "--hard")
        Path("src/new.py").write_text('import re\nre.match(r"(.*),(.*),(.*);", "")\n')
        self.assertEqual(changed(), (1, ["src/new.py:2:10: RLT103"]))

    def what_a_change_writes_about_itself(self) -> None:
        """Its configuration, its accepts and its comments don't count, and each is said."""
        for text in ("exclude = ['*']", "max-degree = 9", "paths = ['src/dates.py']", "compile-as = 'match'"):
            Path("pyproject.toml").write_text(f"[tool.relint]\n{text}\n")
            ran = check("--baseline-commit=main", "--locked")
            self.assertEqual((ran.status, heads(ran)), (1, ["src/new.py:2:10: RLT103"]))
            self.assertIn("the change touches pyproject.toml: what it says there counts once it is merged", ran.out)
        Path("pyproject.toml").write_text(CONFIG)
        self.assertEqual(rlt("accept", "src/new.py:2", "--reason=mine").status, 0)
        ran = check("--baseline-commit=main", "--locked")
        self.assertEqual((ran.status, heads(ran)), (1, ["src/new.py:2:10: RLT103"]))
        self.assertRegex(ran.out, r"relint-accepted.json:\d+: this change wants to accept a finding, .*: mine\n")
        ran = check("--baseline-commit=main")
        self.assertEqual((ran.status, heads(ran)), (0, []))
        self.assertRegex(ran.out, r"relint-accepted.json:\d+: this change accepts a finding: mine\n")
        git("checkout", "-q", "--", "relint-accepted.json")
        Path("src/new.py").write_text('import re\nre.match(r"(.*),(.*),(.*);", "")  # noqa: RLT103\n')
        self.assertEqual(changed(), (1, ["src/new.py:2:10: RLT103"]))
        self.assertEqual(changed("--format=terminal", "-q")[0], 1)
        self.assertEqual(check().status, 0)

    def a_maintainer_accepts(self) -> None:
        """What a maintainer has merged counts, and the report for the server says it too."""
        git("checkout", "-q", "main", "--", ".")
        Path("src/new.py").write_text('import re\nre.match(r"(.*),(.*),(.*);", "")\n')
        self.assertEqual(rlt("accept", "src/new.py:2", "--reason=only our own lines").status, 0)
        git("add", "-A")
        git("commit", "-q", "-m", "accepted")
        git("branch", "-f", "main")
        Path("src/look.py").write_text('import re\nre.search(r"(?=ab)b", "")\n')
        self.assertEqual(changed(), (0, []))
        self.assertEqual(changed("--strict")[0], 1)
        self.assertEqual(rlt("check", "--format=json", "--write=sarif=relint.sarif", "--tracked").status, 0)
        results = json.loads(Path("relint.sarif").read_text())["runs"][0]["results"]
        self.assertEqual(sorted(it["ruleId"] for it in results), ["RLT100", "RLT103", "RLT201"])
        self.assertEqual(sum("suppressions" in it for it in results), 2)


if __name__ == "__main__":
    unittest.main()
