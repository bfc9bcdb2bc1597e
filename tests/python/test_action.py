"""The action over pull requests that a stranger wrote: its steps are run as action.yml has them, with the real rlt."""
from __future__ import annotations

import json
import os
import re
import shutil
import subprocess
import tempfile
import unittest
from pathlib import Path
from typing import Any, Callable, Dict, List, NamedTuple

from engine_support import TOP, missing

WHY = missing("relint", "relint-ask") or ("" if shutil.which("bash") and shutil.which("git") else "it needs bash and git")
OLD = 'import re\n\nROW = re.compile(r"(\\w+\\s?)*$")\n'
BAD = 'import re\n\nNEW = re.compile(r"(a|a)*b")\n\n\ndef f(text):\n    return NEW.search(text)\n'
FAKE = '{"runs": [], "version": "2.1.0"}'
ROW = {"path": "src/new.py", "pattern": '"(a|a)*b"', "mode": "search", "class": "exponential", "reason": "fine"}
CONFIG = '[tool.relint]\nmax-degree = 2\n'
NARROW = ('[tool.relint]\npaths = ["src/rows.py"]\nexclude = ["*"]\nmax-degree = 999999\nmax-pairs = 1\n'
          'compile-as = "fullmatch"\naccepted = "mine.json"\njobs = 1\nseconds = 1\n')


class Came(NamedTuple):
    """What came of the steps: the status, what the step wrote, and the file that would be uploaded, or "" if none is."""

    status: int
    said: str
    uploaded: str


def put(path: Path, text: str) -> None:
    """Writes a file; the folders above it are made."""
    path.parent.mkdir(parents=True, exist_ok=True)
    path.write_text(text, encoding="utf-8")


def steps() -> List[Dict[str, Any]]:
    """The steps of action.yml, each with its keys; `env` and `with` are tables. Only what this file has is understood."""
    text = (TOP / "action.yml").read_text(encoding="utf-8")
    found: List[Dict[str, Any]] = []
    for part in re.split(r"^    - ", text.partition("  steps:\n")[2], flags=re.M)[1:]:
        step: Dict[str, Any] = {}
        table = step
        for indent, key, value in re.findall(r"^( *)([\w-]+): ?(.*)$", "      " + part, re.M):
            table = step if len(indent) == 6 else table
            if value:
                table[key] = value.strip("'") if value.startswith("'") else value
            else:
                table = step[key] = {}
        found.append(step)
    return found


@unittest.skipIf(WHY, WHY)
class Stranger(unittest.TestCase):
    """Pull requests against a small project, checked out as a build server does."""

    def setUp(self) -> None:
        room = tempfile.TemporaryDirectory(prefix="relint action ")
        self.addCleanup(room.cleanup)
        self.room = Path(room.name)
        self.origin, self.work = self.room / "origin", self.room / "work"
        self.env = {key: it for key, it in os.environ.items() if not key.startswith(("GIT_", "GITHUB_", "RELINT_"))}
        self.env.update(HOME=str(self.room), GIT_CONFIG_NOSYSTEM="1", GITHUB_ACTIONS="true", GITHUB_ACTION_PATH=str(TOP))
        self.env.update({name: it for name, it in os.environ.items() if name == "RELINT_ASK"})
        for name, text in {"src/rows.py": OLD, "pyproject.toml": CONFIG, "docs/x.md": "x\n"}.items():
            put(self.origin / name, text)
        self.git("init", "-q", "-b", "main", ".")
        self.commit()
        self.base, self.base_is_in = self.git("rev-parse", "main").strip(), "github.event.pull_request.base.sha"
        self.git("checkout", "-q", "-b", "change")

    def git(self, *words: str, where: str = "origin") -> str:
        """Runs git in the origin, or where it is said."""
        named = ["-c", "user.name=a", "-c", "user.email=a@example.org", "-c", "commit.gpgsign=false",
                 "-c", "protocol.file.allow=always"]
        return subprocess.run(["git", *named, *words], cwd=self.room / where, env=self.env, check=True, stdout=subprocess.PIPE,
                              stderr=subprocess.DEVNULL).stdout.decode()

    def commit(self) -> None:
        """Commits all that stands in the origin."""
        self.git("add", "-A", "-f")
        self.git("commit", "-q", "-m", "text")

    def checked(self, change: Callable[[Path], None], **inputs: str) -> Came:
        """Lets a change be made and committed, checks it out alone, as actions/checkout does, and runs the steps."""
        self.git("checkout", "-q", "-B", "change", "main")
        change(self.origin)
        self.commit()
        shutil.rmtree(self.work, ignore_errors=True)
        self.git("clone", "-q", "--depth=1", "-b", "change", f"file://{self.origin}", str(self.work), where=".")
        return self.stepped(inputs)

    def stepped(self, inputs: Dict[str, str]) -> Came:
        """Runs the steps with these inputs, and the defaults of action.yml for the others."""
        text = (TOP / "action.yml").read_text(encoding="utf-8")
        defaults = dict(re.findall(r"^  (\w+):\n +description: .*(?:\n {6}.*)*\n +default: \"?([^\"\n]*)", text, re.M))
        known = {"github.event.pull_request.base.sha": "", "github.event.merge_group.base_sha": "", self.base_is_in: self.base,
                 "github.server_url": "https://example.org", "github.action_repository": "a/b", "github.action_ref": "v2"}

        def filled(value: str) -> str:
            """A value with what is in its `${{ }}`, which may have some too; of names with `||` the first that isn't empty."""
            for _ in range(2):
                value = re.sub(r"\$\{\{ (.*?) \}\}",
                               lambda it: next(filter(None, [known[name] for name in it[1].split(" || ")]), ""), value)
            return value

        known.update({f"inputs.{name}": it for name, it in {**defaults, **inputs}.items()})
        check, upload = steps()
        self.assertEqual((check["id"], check["shell"]), ("check", "bash"))
        output = self.room / "output"
        output.write_text("")
        env = {**self.env, **{name: filled(it) for name, it in check["env"].items()}, "GITHUB_OUTPUT": str(output)}
        words = ["bash", "--noprofile", "--norc", "-eo", "pipefail", "-c", check["run"]]
        ran = subprocess.run(words, cwd=self.work, env=env, stdin=subprocess.DEVNULL, stdout=subprocess.PIPE,
                             stderr=subprocess.STDOUT)
        self.assertEqual(upload["if"], "always() && steps.check.outputs.written == 'true'")
        file = self.work / filled(upload["with"]["sarif_file"]) if "written=true" in output.read_text().split("\n") else None
        return Came(ran.returncode, ran.stdout.decode(), file.read_text() if file is not None else "")

    def assert_red(self, came: Came, *said: str) -> None:
        """The step fails, and the finding is shown at its place."""
        self.assertEqual(came.status, 1, came.said)
        for it in (r"^::error file=src/[^,]*new\.py,line=3,", *said):
            self.assertRegex(came.said, re.compile(it, re.M))

    def attack(self, top: Path) -> None:
        """Changes the configuration, the accepted files and a pattern at once."""
        put(top / "src/new.py", BAD)
        put(top / "pyproject.toml", NARROW)
        for name in ("mine.json", "relint-accepted.json"):
            put(top / name, json.dumps({"version": 1, "accepted": [ROW]}))

    def test_configuration_accepted_file_and_pattern_at_once(self) -> None:
        said = ("the change touches pyproject.toml: what it says there counts once it is merged",
                r"^::notice file=relint-accepted\.json,line=1::this change wants to accept a finding")
        self.assert_red(self.checked(self.attack), *said)
        # (without the commit before the change, which the step adds, the same change is green)
        self.assertEqual(self.stepped({"base": "", "arguments": "--tracked"}).status, 0)

    def test_a_merge_queue(self) -> None:
        self.base_is_in = "github.event.merge_group.base_sha"
        self.assert_red(self.checked(self.attack))
        self.assertEqual(self.checked(lambda top: put(top / "src/rows.py", "# more\n" + OLD)).status, 0)

    def test_a_change_that_brings_nothing(self) -> None:
        came = self.checked(lambda top: put(top / "src/other.py", "# more\n\n" + OLD.replace("re.compile", "print")))
        self.assertEqual((came.status, "::error" in came.said), (0, False), came.said)
        self.assertEqual(self.checked(lambda top: put(top / "src/rows.py", "# more\n" + OLD)).status, 0)

    def test_other_ways_to_hide_a_pattern(self) -> None:
        def another(top: Path) -> None:
            """Brings the pattern, and a file."""
            put(top / "src/new.py", BAD)
            put(top / name, text)

        for name, text in (
                ("relint.toml", 'exclude = ["*"]\n'), ("src/relint.toml", 'exclude = ["*"]\n'), ("pyproject.toml", "x = 1\n"),
                ("src/pyvenv.cfg", "home = /usr/bin\n"), ("src/.hg/store", ""), (".gitattributes", "*.py binary\n"),
                (".gitignore", "*.py\n"), ("src/new.py", BAD.replace('b")', 'b")  # noqa')),
                ("re.py", "raise SystemExit(0)\n"), ("relint/__init__.py", "raise SystemExit(0)\n"),
                (".python-version", "none\n"), ("rlt", "#!/bin/sh\nexit 0\n"), ("src/build/new.py", BAD)):
            with self.subTest(name):
                self.assert_red(self.checked(another))

    def test_folders_that_are_left_out_elsewhere(self) -> None:
        for folder in ("build", "site-packages", "node_modules", ".venv", "dist"):
            with self.subTest(folder):
                self.assert_red(self.checked(lambda top: put(top / "src" / folder / "new.py", BAD)))

    def test_what_blinds_the_check(self) -> None:
        def linked(top: Path) -> None:
            """Brings a submodule."""
            (top / "src/inner").mkdir()
            self.git("update-index", "--add", "--cacheinfo", f"160000,{self.base},src/inner")

        for change in (lambda top: put(top / "src/new.py", "# coding: latin-1\n" + BAD), linked,
                       lambda top: put(top / "src/new.py", BAD + "#" * 4_194_304)):
            came = self.checked(change)
            self.assertEqual(came.status, 3, came.said)
            self.assertIn("this change brings it", came.said)

    def test_a_report_that_the_change_brings_is_not_uploaded(self) -> None:
        def fake(top: Path) -> None:
            """Brings a report, and what lets the run end before it is written."""
            put(top / "src/new.py", BAD)
            put(top / "relint.sarif", FAKE)
            put(top / "relint-accepted.json/x", "")

        def linked(top: Path) -> None:
            """Brings a report that is a link."""
            put(top / "src/new.py", BAD)
            put(top / "fake", FAKE)
            (top / "relint.sarif").symlink_to("fake")

        for change in (fake, linked):
            came = self.checked(change, sarif="relint.sarif")
            self.assertEqual((came.status in (3, 4), came.uploaded), (True, ""), came.said)
        came = self.checked(self.attack, sarif="relint.sarif")
        self.assert_red(came)
        results = json.loads(came.uploaded)["runs"][0]["results"]
        self.assertEqual([it["ruleId"] for it in results if it["baselineState"] == "new"], ["RLT100"])

    def test_names_of_commits_that_are_none(self) -> None:
        came = self.checked(self.attack, base="1" * 40)
        self.assertEqual(came.status, 3, came.said)


if __name__ == "__main__":
    unittest.main()
