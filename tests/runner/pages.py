"""The part `pages`: each command that a page shows in a block marked `console`, with the output that it shows.

The rule is in `tests/README.md`.
"""
from __future__ import annotations

import concurrent.futures
import difflib
import os
import re
import shlex
import shutil
import subprocess
import tempfile
import uuid
from dataclasses import dataclass, field
from pathlib import Path
from typing import Dict, List, Optional, Tuple

from runner import scratch
from runner.programs import TREE, Program, run_command
from runner.results import Failed, Result, Skipped

_FENCE = re.compile(r"^( *)(`{3,}|~{3,})[ \t]*([^`\s]*)[^`]*$")
_CAT = re.compile(r"cat ([^\s'\"|<>;&$*?-][^\s'\"|<>;&$*?]*)")
_FIRST_WORD = re.compile(r"(?:[A-Za-z_][A-Za-z0-9_]*=\S* +)*([^\s;|&<>()$`'\"]+)")
_NEVER_RUN = ("./test", ".ci/run", "rt")
_TOP = ("README.md", "CHANGELOG.md", "CONTRIBUTING.md", "SECURITY.md")
_FOLDERS = ("docs", "examples", "editors", "fuzz", "tests")
_SECONDS = 3600


@dataclass(frozen=True)
class Block:
    """A fenced block of a page: its mark, the line of its first fence, and its lines."""

    mark: str
    line: int
    lines: List[str]


@dataclass
class Command:
    """A command that a page shows, and the output that it shows."""

    line: int
    text: str
    shown: List[str] = field(default_factory=list)


def blocks_of(page: str) -> List[Block]:
    """The fenced blocks of a page, in order; an indented one without its indent."""
    blocks = []
    opened: Optional[Tuple[int, str, str, int]] = None
    body: List[str] = []
    for number, line in enumerate(page.splitlines(), 1):
        fence = _FENCE.match(line)
        if opened is None:
            if fence:
                opened, body = (len(fence.group(1)), fence.group(2), fence.group(3), number), []
        elif fence and not fence.group(3) and fence.group(2).startswith(opened[1]):
            blocks.append(Block(opened[2], opened[3], body))
            opened = None
        else:
            indent = len(line) - len(line.lstrip(" "))
            body.append(line[min(indent, opened[0]):])
    return blocks


def commands_of(block: Block) -> List[Command]:
    """The commands of a block marked `console`. Raises `Failed` where it begins with output."""
    commands: List[Command] = []
    for number, line in enumerate(block.lines, block.line + 1):
        if line.startswith("$ "):
            commands.append(Command(number, line[2:]))
        elif not commands:
            raise Failed("line %d: a block marked console begins with a command" % number)
        elif line.startswith("> ") and not commands[-1].shown:
            commands[-1].text += "\n" + line[2:]
        else:
            commands[-1].shown.append(line)
    return commands


def fits(shown: List[str], came: List[str]) -> bool:
    """Whether the lines that came are those that a page shows, where `...` stands for any number of lines."""
    if "..." not in shown:
        return shown == came
    place = shown.index("...")
    if shown[:place] != came[:place]:
        return False
    rest = shown[place + 1:]
    return any(fits(rest, came[start:]) for start in range(place, len(came) + 1))


def difference(command: Command, came: List[str]) -> str:
    """The lines that a page shows against those that came."""
    lines = difflib.unified_diff(command.shown, came, "shown", "came", lineterm="", n=2)
    return "\n".join("      " + line for line in lines)


def unmarked(blocks: List[Block]) -> List[int]:
    """The lines of the blocks that look like a console and aren't marked so."""
    return [block.line for block in blocks
            if block.mark not in ("console", "sh", "markdown") and any(line.startswith("$ ") for line in block.lines)]


class _Console:
    """One shell for the commands of a page, in a copy of the repository."""

    def __init__(self, scratch_folder: Path, copy: Path, environment: Dict[str, str]) -> None:
        self.folder = scratch_folder
        self.copy = copy
        self.environment = environment
        self.shell = shutil.which("bash") or "sh"
        self.mark = "ended-" + uuid.uuid4().hex

    def is_there(self, command: str) -> bool:
        """Whether the program that a command begins with is installed; those of this repository count as such."""
        name = first_word(command)
        if not name or "/" in name or name.startswith("relint"):
            return True
        asked = subprocess.run([self.shell, "-c", "type " + shlex.quote(name)], cwd=str(self.copy), env=self.environment,
                               stdout=subprocess.DEVNULL, stderr=subprocess.DEVNULL, check=False)
        return asked.returncode == 0

    def made(self, command: Command) -> str:
        """What the shell does before a command: where it is a `cat` of a file that isn't there, the file is made."""
        found = _CAT.fullmatch(command.text)
        if not found:
            return ""
        shown = self.folder / ("shown-%d" % command.line)
        shown.write_text("".join(line + "\n" for line in command.shown), encoding="utf-8")
        name = shlex.quote(found.group(1))
        return '[ -e %s ] || { mkdir -p "$(dirname %s)" && cp %s %s; }\n' % (name, name, shlex.quote(str(shown)), name)

    def script(self, commands: List[Command]) -> str:
        """The commands one after another; after each a line with the mark and its number, and its status kept."""
        ended = "\n{ __status=$?; printf '\\n%s %%d\\n' %d; (exit \"$__status\"); }\n"
        return "".join(self.made(command) + command.text + ended % (self.mark, number)
                       for number, command in enumerate(commands))

    def outputs(self, commands: List[Command]) -> List[List[str]]:
        """The lines that each command writes, and those after the last one that ended."""
        script = self.folder / "page.sh"
        script.write_text(self.script(commands), encoding="utf-8")
        answer = run_command([self.shell, str(script)], self.copy, self.environment, _SECONDS, together=True)
        pieces = re.split("\n%s [0-9]+\n" % self.mark, answer.stdout.replace(str(script), "the page"))
        return [piece.splitlines() for piece in pieces]


def first_word(command: str) -> str:
    """The word that names a command's program, "" where it isn't plain."""
    found = _FIRST_WORD.match(command)
    return found.group(1) if found else ""


def _judge_commands(page: str, commands: List[Command], console: _Console, result: Result) -> None:
    """Runs the commands of a page as far as their programs are there."""
    missing = [number for number, command in enumerate(commands) if not console.is_there(command.text)]
    if missing:
        skipped = commands[missing[0]]
        result.skip("%s:%d" % (page, skipped.line), "%s isn't installed" % first_word(skipped.text))
        commands = commands[:missing[0]]
    if not commands:
        return
    try:
        outputs = console.outputs(commands)
    except Failed as failure:
        result.fail(page, str(failure))
        return
    for number, (command, came) in enumerate(zip(commands, outputs), 1):
        if number == len(outputs):
            result.fail("%s:%d" % (page, command.line), "the shell ended here: " + "\n".join(came).strip()[-500:])
        elif fits(command.shown, came):
            result.passed += 1
        else:
            result.fail("%s:%d" % (page, command.line), "$ %s\n%s" % (command.text, difference(command, came)))


def _judge_scripts(page: str, blocks: List[Block], result: Result) -> None:
    """Has the shell read each block marked `sh`."""
    for block in blocks:
        text = "\n".join(block.lines) + "\n"
        read = subprocess.run(["sh", "-n"], input=text.encode("utf-8"), stdout=subprocess.PIPE, stderr=subprocess.STDOUT,
                              check=False)
        place = "%s:%d" % (page, block.line)
        if any(line.startswith("$ ") for line in block.lines):
            result.fail(place, "a block marked sh has a line that begins with `$ `")
        elif read.returncode != 0:
            result.fail(place, "the shell doesn't read it: " + read.stdout.decode("utf-8", "replace").strip())
        else:
            result.passed += 1


def judge_page(page: str, text: str, base: Path, environment: Dict[str, str]) -> Result:
    """Tries all that a page shows. `base` is a copy of the repository, which is copied anew."""
    result = Result()
    blocks = blocks_of(text)
    for line in unmarked(blocks):
        result.fail("%s:%d" % (page, line), "the block has a line that begins with `$ ` and isn't marked console")
    _judge_scripts(page, [block for block in blocks if block.mark == "sh"], result)
    try:
        commands = [command for block in blocks if block.mark == "console" for command in commands_of(block)]
    except Failed as failure:
        result.fail(page, str(failure))
        return result
    for command in commands:
        if first_word(command.text) in _NEVER_RUN:
            result.fail("%s:%d" % (page, command.line), "no test runs %s: mark the block sh" % first_word(command.text))
            return result
    if commands:
        with tempfile.TemporaryDirectory() as folder:
            copy = Path(folder) / "relint"
            shutil.copytree(str(base), str(copy), symlinks=True)
            _judge_commands(page, commands, _Console(Path(folder), copy, dict(environment, HOME=folder)), result)
    return result


def pages() -> List[Path]:
    """The pages, relative to the top."""
    return [path for path in scratch.files_of_tree()
            if str(path) in _TOP or (path.suffix == ".md" and path.parts[0] in _FOLDERS)]


def run(program: Program) -> Result:
    """Tries all pages, some at a time."""
    result = Result()
    with tempfile.TemporaryDirectory() as folder:
        base = Path(folder) / "relint"
        environment = scratch.environment_of(Path(folder))
        scratch.copy_tree(base)
        scratch.put_programs(Path(folder) / "bin", base, program)
        try:
            scratch.commit_all(base, environment)
        except Skipped as skipped:
            result.skip("the repository of the pages", str(skipped))

        def judged(page: Path) -> Result:
            return judge_page(str(page), (TREE / page).read_text(encoding="utf-8"), base, environment)

        with concurrent.futures.ThreadPoolExecutor(os.cpu_count() or 1) as pool:
            for answer in pool.map(judged, pages()):
                result.add(answer)
    return result
