"""Scratch copies of the repository, in which pages and hooks are run."""
from __future__ import annotations

import hashlib
import os
import re
import shlex
import shutil
import subprocess
from pathlib import Path
from typing import Dict, List

from relint_build.program import PROGRAMS
from runner.programs import TREE, Program, clean_environment, run_command, tested_ask
from runner.results import Failed, Skipped

_LEFT_OUT = {".git", "out", "__pycache__", ".mypy_cache", "node_modules", ".venv"}


def files_of_tree() -> List[Path]:
    """The files that git tracks or would add, relative to the top; without git, all but what is built."""
    listed = subprocess.run(["git", "ls-files", "-z", "--cached", "--others", "--exclude-standard"], cwd=str(TREE),
                            stdout=subprocess.PIPE, stderr=subprocess.DEVNULL, check=False) if shutil.which("git") else None
    if listed is not None and listed.returncode == 0 and (TREE / ".git").exists():
        paths = [Path(os.fsdecode(name)) for name in sorted(set(listed.stdout.split(b"\0"))) if name]
        return [path for path in paths if os.path.lexists(str(TREE / path))]
    return _walked()


def _walked() -> List[Path]:
    paths = []
    for folder, folders, names in os.walk(str(TREE)):
        folders[:] = sorted(name for name in folders if name not in _LEFT_OUT)
        paths += [Path(folder, name).relative_to(TREE) for name in sorted(names)]
    return paths


def copy_tree(target: Path) -> None:
    """Copies the files of the repository but those of `crates/` to a folder, which is made."""
    made = set()
    for path in files_of_tree():
        if path.parts[0] == "crates":
            continue
        place = target / path
        if place.parent not in made:
            place.parent.mkdir(parents=True, exist_ok=True)
            made.add(place.parent)
        shutil.copy2(str(TREE / path), str(place), follow_symlinks=False)


def put_small_tree(copy: Path) -> None:
    """Puts a small crate for each program into a copy that has none, and makes the copy's release, as it is, one of these.

    The programs stay those of the repository except for the sum that they have as their build ID, which is in the file once.
    Raises `Failed` if there is no release.
    """
    info = copy / "release" / "INFO"
    if not info.is_file():
        raise Failed("the copy has no release")
    held = {name: start for name, start in PROGRAMS.items() if (copy / "release" / "x86_64" / name).is_file()}
    crates = [name.replace("-", "_") for name in held]
    (copy / "crates.txt").write_text("".join("%s:\n" % it for it in crates), encoding="utf-8")
    text = info.read_text(encoding="utf-8")
    for (name, start), crate in zip(held.items(), crates):
        source = copy / "crates" / crate / "src" / "build"
        source.mkdir(parents=True)
        (source / "main.rt").write_text("fn main() {}\n", encoding="utf-8")
        taken = run_command(["sh", "-c", "top=$PWD; . release/tree.sh; tree_sum " + crate], copy)
        if taken.status != 0:
            raise Failed("the copy has no sum: " + taken.stderr)
        old, new = _value_of(start + "sum", text), taken.stdout.strip()
        for path in sorted((copy / "release").glob("*/" + name)):
            content = path.read_bytes()
            changed = content.replace(bytes.fromhex(old), bytes.fromhex(new))
            path.write_bytes(changed)
            text = text.replace(hashlib.sha256(content).hexdigest(), hashlib.sha256(changed).hexdigest())
        text = text.replace(old, new)
    info.write_text(text, encoding="utf-8")
    _list_release(copy / "release")


def _value_of(key: str, text: str) -> str:
    """The value of a line `KEY VALUE` of release/INFO."""
    found = re.search(r"^%s (\S+)$" % key, text, re.MULTILINE)
    if found is None:
        raise Failed("release/INFO has no line %s" % key)
    return found.group(1)


def _list_release(folder: Path) -> None:
    """Writes the SHA256SUMS of a release anew, for the same files."""
    listed = folder / "SHA256SUMS"
    names = [line.split("  ", 1)[1] for line in listed.read_text(encoding="utf-8").splitlines()]
    sums = [hashlib.sha256((folder / name).read_bytes()).hexdigest() for name in names]
    listed.write_text("".join("%s  %s\n" % pair for pair in zip(sums, names)), encoding="utf-8")


def write_script(path: Path, text: str) -> None:
    """Writes a program that can be run."""
    path.parent.mkdir(parents=True, exist_ok=True)
    if os.path.lexists(str(path)):
        path.unlink()
    path.write_text(text, encoding="utf-8")
    path.chmod(0o755)


def _forward(program: Path) -> str:
    return "#!/bin/sh\nexec %s \"$@\"\n" % shlex.quote(str(program))


def put_programs(folder: Path, copy: Path, program: Program) -> None:
    """Puts `relint`, `relint-ask` and `rlt` of a copy into a folder for the PATH.

    `./relint` and `tools/relint-ask` of the copy become the programs that are tested.
    """
    write_script(folder / "relint", _forward(program.path))
    write_script(copy / "relint", _forward(program.path))
    ask = tested_ask()
    if ask is not None:
        write_script(copy / "tools" / "relint-ask", _forward(ask))
    for path in files_of_tree():
        place = copy / path
        if path.name.startswith(("relint-", "rlt")) and path.parts[0] == "tools" and os.access(str(place), os.X_OK):
            write_script(folder / path.name, _forward(place))


def environment_of(scratch: Path) -> Dict[str, str]:
    """The environment of commands in a scratch folder, whose home is empty and whose programs come first."""
    home = scratch / "home"
    home.mkdir(parents=True, exist_ok=True)
    path = os.pathsep.join([str(scratch / "bin"), os.environ.get("PATH", os.defpath)])
    person = {"GIT_AUTHOR_NAME": "A Reader", "GIT_AUTHOR_EMAIL": "reader@example.org",
              "GIT_COMMITTER_NAME": "A Reader", "GIT_COMMITTER_EMAIL": "reader@example.org",
              "GIT_CONFIG_NOSYSTEM": "1"}
    return clean_environment(HOME=str(home), PATH=path, XDG_CACHE_HOME=str(home / ".cache"),
                             PRE_COMMIT_HOME=str(home / ".cache" / "pre-commit"), **person)


def git(folder: Path, environment: Dict[str, str], *words: str) -> str:
    """What git writes for these words. Raises `Skipped` without git, `Failed` where git fails."""
    if not shutil.which("git"):
        raise Skipped("git isn't installed")
    answer = run_command(["git", "-c", "init.defaultBranch=main"] + list(words), folder, environment)
    if answer.status != 0:
        raise Failed("git %s: %s" % (" ".join(words), answer.stderr))
    return answer.stdout


def commit_all(folder: Path, environment: Dict[str, str]) -> str:
    """Makes a repository of a folder with all in one commit, and answers the commit's name."""
    git(folder, environment, "init", "-q")
    git(folder, environment, "add", "-A")
    git(folder, environment, "-c", "commit.gpgsign=false", "commit", "-q", "--no-verify", "-m", "A copy")
    return git(folder, environment, "rev-parse", "HEAD").strip()
