"""The part `examples`: `examples/compare`, the syntax of each script, and the hook of `examples/ci` in scratch folders."""
from __future__ import annotations

import re
import shutil
import tempfile
from dataclasses import dataclass
from functools import partial
from pathlib import Path
from typing import Callable, Dict, List, Tuple

from runner import scratch
from runner.programs import Answer, Program, run_command
from runner.results import Failed, Result

FINDING = 'import re\nre.compile(r"(\\w+\\s?)*$")\n'
GOOD = 'import re\nre.match(r"[a-z]+x", s)\n'


@dataclass(frozen=True)
class Commit:
    """Files that are staged, what is done then, and what the hook has to say of the commit."""

    what: str
    files: Dict[str, str]
    stops: bool
    after: str = ""


COMMITS = [
    Commit("a good file", {"good.py": GOOD}, False),
    Commit("no Python file", {"notes.txt": "notes\n"}, False),
    Commit("a finding", {"src/bad.py": FINDING}, True),
    Commit("a finding in a file with a name of its own", {"src/a b \u00fc.py": FINDING}, True),
    Commit("a finding in a file that is renamed", {"text.txt": FINDING}, True,
           "git commit -q --no-verify -m Before; git mv text.txt bad.py"),
    Commit("a staged finding that the work tree doesn't have", {"bad.py": FINDING}, True, "echo 'import re' >bad.py"),
    Commit("a finding of the work tree that isn't staged", {"good.py": GOOD}, False,
           "printf 'import re\\nre.compile(\"(a|a)*b\")\\n' >good.py"),
    Commit("a finding in a file that is deleted", {"bad.py": FINDING}, False,
           "git commit -q --no-verify -m Before; git rm -q bad.py"),
]


class _Place:
    """The copy of the repository that holds the scripts, and the environment in which they find the program."""

    def __init__(self, folder: Path, program: Program) -> None:
        self.folder = folder
        self.copy = folder / "relint"
        self.environment = scratch.environment_of(folder)
        scratch.copy_tree(self.copy)
        scratch.put_programs(folder / "bin", self.copy, program)

    def script(self, name: str) -> Path:
        return self.copy / "examples" / "ci" / name

    def project(self, files: Dict[str, str]) -> Path:
        project = Path(tempfile.mkdtemp(dir=str(self.folder)))
        for path, text in files.items():
            place = project / path
            place.parent.mkdir(parents=True, exist_ok=True)
            place.write_text(text, encoding="utf-8")
        return project

    def run(self, command: List[str], project: Path) -> Answer:
        return run_command(command, project, self.environment, together=True)


def _compare(place: _Place) -> None:
    answer = place.run([str(place.copy / "examples" / "compare")], place.folder)
    if answer.status != 0:
        raise Failed("examples/compare ended with status %d:\n%s" % (answer.status, answer.stdout))


def _read(place: _Place, path: Path) -> None:
    answer = place.run([_shell_of(place.copy / path), "-n", str(place.copy / path)], place.folder)
    if answer.status != 0:
        raise Failed("the shell doesn't read it: " + answer.stdout)


def _commit(place: _Place, commit: Commit) -> None:
    project = place.project({"README": "A project\n"})
    scratch.commit_all(project, place.environment)
    for path, text in commit.files.items():
        (project / path).parent.mkdir(parents=True, exist_ok=True)
        (project / path).write_text(text, encoding="utf-8")
    scratch.git(project, place.environment, "add", "-A")
    place.run(["sh", "-c", commit.after], project)
    (project / ".git" / "hooks").mkdir(exist_ok=True)
    shutil.copy2(str(place.script("pre-commit")), str(project / ".git" / "hooks" / "pre-commit"))
    answer = place.run(["git", "commit", "-q", "-m", "After"], project)
    if (answer.status != 0) != commit.stops:
        raise Failed("the commit ended with status %d: %s" % (answer.status, answer.stdout))
    if commit.stops and "exponential" not in answer.stdout:
        raise Failed("the finding isn't shown: %s" % answer.stdout)


def _shell_of(path: Path) -> str:
    """The shell that a script names in its first line, "" where it is no script of a shell."""
    with path.open("rb") as opened:
        first = opened.readline(100).decode("utf-8", "replace")
    found = re.match(r"#!.*?\b(sh|bash)\b", first)
    return found.group(1) if found else ""


def tests_of(place: _Place) -> List[Tuple[str, Callable[[], None]]]:
    tests: List[Tuple[str, Callable[[], None]]] = [("examples/compare", partial(_compare, place))]
    for path in scratch.files_of_tree():
        if path.parts[0] == "examples" and _shell_of(place.copy / path):
            tests.append((str(path), partial(_read, place, path)))
    for commit in COMMITS:
        tests.append(("examples/ci/pre-commit, " + commit.what, partial(_commit, place, commit)))
    return tests


def run(program: Program) -> Result:
    result = Result()
    with tempfile.TemporaryDirectory() as folder:
        for name, test in tests_of(_Place(Path(folder), program)):
            result.take(name, test)
    return result
