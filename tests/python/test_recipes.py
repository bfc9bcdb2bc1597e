"""The hook of examples/ci and the step of action.yml, with stand-ins for rlt that note their words."""
from __future__ import annotations

import os
import re
import shutil
import subprocess
import tempfile
import unittest
from pathlib import Path
from typing import List

TOP = Path(__file__).resolve().parents[2]
# Notes its words, one a line, and ends with the next of the statuses in the file beside it.
NOTES = """#!/bin/sh
{ echo call; printf '%s\\n' "$@"; } >>"$NOTES.words"
read -r status <"$NOTES.statuses" || status=0
sed -i 1d "$NOTES.statuses"
cat "$NOTES.says"
for it; do
    case $status.$it in
        [013].sarif=*) [ -z "${WRITES:-}" ] || { echo "{}" >"$NOTES.new" && mv "$NOTES.new" "${it#sarif=}"; } ;;
    esac
done
exit "$status"
"""


class Scratch(unittest.TestCase):
    """A scratch folder with a git repository, and a stand-in for rlt on the PATH."""

    def setUp(self) -> None:
        room = tempfile.TemporaryDirectory(prefix="relint recipes ")
        self.addCleanup(room.cleanup)
        self.room = Path(room.name)
        self.notes, self.project = self.room / "notes", self.room / "a project"
        (self.room / "bin").mkdir()
        (self.room / "bin/rlt").write_text(NOTES)
        (self.room / "bin/rlt").chmod(0o755)
        self.project.mkdir()
        self.set_up(says="", statuses=[])
        kept = {key: value for key, value in os.environ.items() if not key.startswith("GIT_")}
        path = f"{self.room / 'bin'}:{os.environ['PATH']}"
        self.env = {**kept, "PATH": path, "NOTES": str(self.notes), "HOME": str(self.room), "GIT_CONFIG_NOSYSTEM": "1"}
        if shutil.which("git"):
            self.git("init", "-q")

    def set_up(self, says: str, statuses: List[int]) -> None:
        Path(f"{self.notes}.says").write_text(says)
        Path(f"{self.notes}.statuses").write_text("".join(f"{it}\n" for it in statuses))
        Path(f"{self.notes}.words").write_text("")

    def git(self, *words: str) -> str:
        named = ["-c", "user.name=a", "-c", "user.email=a@example.org"]
        ran = subprocess.run(["git", *named, *words], cwd=self.project, env=self.env, stdout=subprocess.PIPE, check=True)
        return ran.stdout.decode()

    def run_script(self, script: Path, *words: str) -> subprocess.CompletedProcess[str]:
        command, nothing = [str(script), *words], subprocess.DEVNULL
        return subprocess.run(command, cwd=self.project, env=self.env, stdin=nothing, capture_output=True, text=True)

    def calls(self) -> List[List[str]]:
        """The words of each call of the stand-in."""
        found: List[List[str]] = []
        for line in Path(f"{self.notes}.words").read_text().splitlines():
            if line == "call":
                found.append([])
            else:
                found[-1].append(line)
        return found


@unittest.skipUnless(shutil.which("git"), "it needs git")
class Hook(Scratch):
    """The hook of git, with a stand-in for rlt that finds files that hold the word BAD."""

    def setUp(self) -> None:
        super().setUp()
        (self.room / "bin/rlt").write_text('#!/bin/sh\nshift 3\n! grep -Hn BAD "$@"\n')
        shutil.copy(TOP / "examples/ci/pre-commit", self.project / ".git/hooks/pre-commit")

    def commit(self) -> subprocess.CompletedProcess[str]:
        words = ["git", "-c", "user.name=a", "-c", "user.email=a@example.org", "commit", "-q", "-m", "text"]
        return subprocess.run(words, cwd=self.project, env=self.env, capture_output=True, text=True)

    def stage(self, name: str, text: str) -> None:
        (self.project / name).parent.mkdir(exist_ok=True)
        (self.project / name).write_text(text)
        self.git("add", "-A")

    def assert_passes(self) -> None:
        ran = self.commit()
        self.assertEqual((ran.returncode, ran.stdout, ran.stderr), (0, "", ""))

    def assert_stops(self, *shown: str) -> None:
        ran = self.commit()
        self.assertEqual((ran.returncode != 0, sorted(ran.stderr.splitlines())), (True, [*shown]))

    def test_a_finding_stops_the_commit(self) -> None:
        self.stage("sub folder/naïve.py", "BAD\n")
        self.stage("text.txt", "BAD\n")
        self.assert_stops("sub folder/naïve.py:1:BAD")

    def test_what_is_staged_counts(self) -> None:
        self.stage("a.py", "good\n")
        (self.project / "a.py").write_text("BAD\n")
        self.assert_passes()
        self.git("add", "-A")
        (self.project / "a.py").write_text("good\n")
        self.assert_stops("a.py:1:BAD")

    def test_renames_deletions_and_no_python_file(self) -> None:
        self.stage("a.py", "good\n" * 9)
        self.assert_passes()
        self.stage("text.txt", "BAD\n")
        self.assert_passes()
        self.git("mv", "a.py", "b.py")
        self.assert_passes()
        self.git("rm", "-q", "b.py")
        self.stage("c.py", "good\n" * 9 + "BAD\n")
        self.assert_stops("c.py:10:BAD")


@unittest.skipUnless(shutil.which("bash") and shutil.which("git"), "it needs bash and git")
class Action(Scratch):
    """The step of action.yml, with a stand-in for rlt."""

    def setUp(self) -> None:
        super().setUp()
        top = self.room / "the action"
        for name in ("packaging/action", "action.yml"):
            (top / name).parent.mkdir(parents=True, exist_ok=True)
            shutil.copy(TOP / name, top / name)
        (top / "tools").mkdir()
        shutil.copy(self.room / "bin/rlt", top / "tools/rlt")
        self.env.update(GITHUB_ACTION_PATH=str(top), GITHUB_OUTPUT=str(self.room / "output"))
        text = (top / "action.yml").read_text()
        self.runs = re.findall(r"^ *run: '(.*)'$", text, re.M)
        self.defaults = dict(re.findall(r"^  (\w+):\n +description: .*(?:\n {6}.*)*\n +default: \"?([^\"\n]*)", text, re.M))

    def step(self, **given: str) -> subprocess.CompletedProcess[str]:
        for name, value in {**self.defaults, "base": "", **given}.items():
            self.env[f"RELINT_{name.upper()}"] = value
        words = ["bash", "--noprofile", "--norc", "-eo", "pipefail", "-c", self.runs[0]]
        return subprocess.run(words, cwd=self.project, env=self.env, capture_output=True, text=True)

    def output(self) -> str:
        file = self.room / "output"
        return file.read_text() if file.exists() else ""

    def test_defaults(self) -> None:
        base = "${{ github.event.pull_request.base.sha || github.event.merge_group.base_sha }}"
        expected = {"paths": "", "arguments": "--tracked", "sarif": "", "base": base}
        self.assertEqual((len(self.runs), self.defaults), (1, expected))
        self.set_up("shown\n", [1])
        ran = self.step()
        self.assertEqual((ran.returncode, ran.stdout, ran.stderr), (1, "shown\n", ""))
        self.assertEqual((self.calls(), self.output()), ([["check", "--tracked", "--format", "github", "--"]], ""))

    def test_lines_and_sarif(self) -> None:
        for status, writes, written in ((1, "1", "written=true\n"), (4, "1", ""), (2, "1", ""), (0, "1", "written=true\n"),
                                        (3, "1", "written=true\n"), (3, "", ""), (1, "", "")):
            # (a run that ends early leaves the file of the change itself there)
            (self.project / "out.sarif").write_text("{}")
            (self.room / "output").write_text("")
            self.env["WRITES"] = writes
            self.set_up("{}\n", [status])
            ran = self.step(paths="src\na b\n\n", arguments="--max-degree\n1", sarif="out.sarif")
            self.assertEqual((ran.returncode, self.output()), (status, written))
            options = ["check", "--max-degree", "1", "--write", "sarif=out.sarif", "--format", "github"]
            self.assertEqual(self.calls(), [[*options, "--", "src", "a b"]])

    def test_the_commit_before(self) -> None:
        self.git("commit", "-q", "--allow-empty", "-m", "first")
        name = self.git("rev-parse", "HEAD").strip()
        self.set_up("", [0])
        self.assertEqual(self.step(base=name, arguments="").returncode, 0)
        self.assertEqual(self.calls(), [["check", "--baseline-commit", name, "--locked", "--format", "github", "--"]])
        self.set_up("", [])
        self.assertEqual(self.step(base="1" * 40).returncode, 3)
        for wrong in ("--upload-pack=x", "a b", "$(touch x)", "a\nb"):
            self.assertEqual(self.step(base=wrong).returncode, 2)
        self.assertEqual(self.calls(), [])


class Files(unittest.TestCase):
    """The files for build servers."""

    def test_each_takes_the_commit_before_and_is_locked(self) -> None:
        gitlab = (TOP / "examples/ci/gitlab.yml").read_text()
        for text in (gitlab, (TOP / "packaging/action").read_text()):
            self.assertRegex(text, r"--baseline-commit \S+ --locked")
        self.assertIn("--locked --tracked", gitlab)
        self.assertIn("steps.check.outputs.written == 'true'", (TOP / "action.yml").read_text())

    def test_the_example_for_github_is_what_the_page_says(self) -> None:
        page = (TOP / "docs/CI.md").read_text().partition("- **GitHub**")[2].partition("- **GitLab**")[0]
        example = (TOP / "examples/ci/github.yml").read_text()
        action = (TOP / "action.yml").read_text()
        events = re.findall(r"\w+", re.findall(r"^on: \[(.*)\]$", example, re.M)[0])
        self.assertEqual(events, ["push", "pull_request", "merge_group"])
        for event in events[1:]:
            self.assertIn(f"github.event.{event}.base", action)
        job = re.findall(r"^jobs:\n  ([\w-]+):$", example, re.M)[0]
        self.assertTrue("`merge_group`" in page and f"tick the check `{job}`" in page)
        inputs = re.findall(r"^  (\w+):$", action.partition("inputs:\n")[2].partition("\nruns:")[0], re.M)
        self.assertEqual([it for it in inputs if f"`{it}`" not in page], [])
        given = re.findall(r"^          ([\w-]+):", example, re.M)
        self.assertLessEqual(set(given), set(inputs))

    def test_no_page_runs_a_module_of_the_current_folder(self) -> None:
        pages = [*TOP.glob("*.md"), *TOP.glob("docs/*.md"), *TOP.glob("examples/**/*")]
        for path in (it for it in pages if it.is_file() and it.name != "SECURITY.md"):
            self.assertNotRegex(path.read_text(encoding="utf-8", errors="replace"), r"python3? -m relint", path)

    def test_the_hooks_run_what_there_is(self) -> None:
        text = (TOP / ".pre-commit-hooks.yaml").read_text()
        self.assertEqual(re.findall(r"entry: (.*)", text), ["rlt check", "rlt fix", "relint check"])
        self.assertEqual(re.findall(r"args: \[.*?(\S+)\]", text), ["--"] * 3)


if __name__ == "__main__":
    unittest.main()
