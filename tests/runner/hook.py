"""The part `hook`: the hook of the pre-commit framework, installed from a copy of this repository into a scratch one."""
from __future__ import annotations

import re
import shutil
import tempfile
from dataclasses import dataclass
from functools import partial
from pathlib import Path
from typing import Dict, List

from runner import scratch
from runner.examples import FINDING, GOOD
from runner.programs import TREE, Program, run_command
from runner.results import Failed, Result

_HOOKS = TREE / ".pre-commit-hooks.yaml"
_CONFIG = """repos:
  - repo: %s
    rev: %s
    hooks:
"""
_SECONDS = 1800


@dataclass(frozen=True)
class Staged:
    """What is staged, whether the hook has to stop it, and what it has to show."""

    what: str
    files: Dict[str, str]
    stops: bool
    shows: str = ""


STAGED = [
    Staged("a finding stops the commit", {"bad one.py": FINDING, "good.py": GOOD}, True, "bad one.py:2"),
    Staged("a good file passes", {"\u00fc.py": GOOD, "-a.py": GOOD}, False),
    Staged("a file with a literal that isn't closed passes and is named", {"open.py": "x = 'a\n"}, False, "unterminated"),
    Staged("no Python file passes", {"notes.txt": "notes\n"}, False),
]


@dataclass(frozen=True)
class _Project:
    """A scratch repository with the hook of a copy of this one."""

    folder: Path
    environment: Dict[str, str]

    def judge(self, hook: str, staged: Staged) -> None:
        """Stages these files alone, runs the hook over them, and raises `Failed` where it answers otherwise."""
        scratch.git(self.folder, self.environment, "rm", "-q", "-r", "--cached", "--ignore-unmatch", ".")
        for path, text in staged.files.items():
            (self.folder / path).write_text(text, encoding="utf-8")
        scratch.git(self.folder, self.environment, "add", "--", ".pre-commit-config.yaml", *staged.files)
        command = ["pre-commit", "run", "--color=never", hook]
        answer = run_command(command, self.folder, self.environment, _SECONDS, together=True)
        if (answer.status != 0) != staged.stops or "An unexpected error" in answer.stdout:
            raise Failed("pre-commit ended with status %d:\n%s" % (answer.status, answer.stdout))
        if staged.shows not in answer.stdout:
            raise Failed("%r isn't shown:\n%s" % (staged.shows, answer.stdout))


def hooks() -> List[str]:
    """The names of the hooks that this repository has."""
    return re.findall(r"^- id: *(\S+)", _HOOKS.read_text(encoding="utf-8"), re.MULTILINE)


def _project(folder: Path, program: Program) -> _Project:
    environment = scratch.environment_of(folder)
    copy = folder / "relint"
    scratch.copy_tree(copy)
    scratch.put_small_tree(copy)
    revision = scratch.commit_all(copy, environment)
    # a copy of its own: `relint` on the PATH is the program that is tested, `./relint` of the first copy is left as it is
    scratch.put_programs(folder / "bin", folder / "other", program)
    project = folder / "project"
    project.mkdir()
    config = _CONFIG % (copy, revision) + "".join("      - id: %s\n" % hook for hook in hooks())
    (project / ".pre-commit-config.yaml").write_text(config, encoding="utf-8")
    scratch.git(project, environment, "init", "-q")
    return _Project(project, environment)


def _what_is_missing() -> str:
    if not _HOOKS.exists():
        return "there is no .pre-commit-hooks.yaml"
    for name in ("pre-commit", "git"):
        if not shutil.which(name):
            return "%s isn't installed" % name
    if re.search(r"^\s*language:\s*python\b", _HOOKS.read_text(encoding="utf-8"), re.MULTILINE):
        if not all((TREE / "release" / it / "relint").exists() for it in ("x86_64", "aarch64")):
            return "there is no release/ for both machines, which the hook installs: tools/release makes it"
    return ""


def run(program: Program) -> Result:
    """Runs each hook over some staged files."""
    result = Result()
    missing = _what_is_missing()
    if missing:
        result.skip("hook", missing)
        return result
    with tempfile.TemporaryDirectory() as folder:
        try:
            project = _project(Path(folder), program)
        except Failed as failure:
            result.fail("hook", str(failure))
            return result
        for hook in hooks():
            for staged in STAGED:
                result.take("%s: %s" % (hook, staged.what), partial(project.judge, hook, staged))
    return result
