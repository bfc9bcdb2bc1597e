"""The part `rows`: the worked rows of `crates/rows/data/*.toml`, over real folders."""
from __future__ import annotations

import concurrent.futures
import os
import re
import tempfile
from dataclasses import dataclass, field
from pathlib import Path
from typing import Any, Dict, Iterable, List, Tuple

from runner import families
from runner.programs import TREE, Answer, Program
from runner.results import Failed, Result, Skipped, shortened
from runner.texts import BadText, link_target, text_bytes
from runner.toml import parse_toml

ROWS = TREE / "crates" / "rows" / "data"
_NAME = re.compile(r"[a-z0-9]+(?:-[a-z0-9]+)*")
_GREATEST_K = 6


class BadRow(ValueError):
    """A row has a field that isn't known, or a value that its field doesn't take."""


@dataclass(frozen=True)
class Saved:
    """A run before the row's own, whose standard output becomes a file."""

    words: List[Any]
    save: str


@dataclass(frozen=True)
class Printed:
    """A family that a report prints: the pattern that it is of, and in which mode."""

    pattern: str
    mode: str


@dataclass(frozen=True)
class Row:
    """A worked row; `crates/rows/data/README.md` says what each field means."""

    name: str
    words: List[Any]
    stdout: Any = ""
    stderr: Any = ""
    status: int = 0
    begins: str = ""
    files: Dict[str, Any] = field(default_factory=dict)
    before: List[Saved] = field(default_factory=list)
    then: Dict[str, Any] = field(default_factory=dict)
    family: int = -1
    families: List[Printed] = field(default_factory=list)
    stable: bool = False
    round: bool = False
    tree_failing: List[int] = field(default_factory=list)
    out_failing: List[int] = field(default_factory=list)
    err_failing: List[int] = field(default_factory=list)
    out_step: int = 0
    err_step: int = 0
    tree_faults: int = -1
    every_call: bool = False

    def needs_failing_calls(self) -> bool:
        """Whether calls or writes have to fail or to take less than they are given, which no real folder can do."""
        lists = (self.tree_failing, self.out_failing, self.err_failing)
        return any(lists) or self.out_step > 0 or self.err_step > 0 or self.every_call


_TYPES: Dict[str, Tuple[type, ...]] = {
    "name": (str,), "words": (list,), "stdout": (str, dict), "stderr": (str, dict), "status": (int,), "begins": (str,),
    "files": (dict,), "before": (list,), "then": (dict,), "family": (int,), "families": (list,), "stable": (bool,),
    "round": (bool,), "tree_failing": (list,), "out_failing": (list,), "err_failing": (list,), "out_step": (int,),
    "err_step": (int,), "tree_faults": (int,), "every_call": (bool,),
}


def _checked(table: Dict[str, Any]) -> None:
    """Raises `BadRow` where a row has a field that isn't known, or a value of another kind."""
    for key, value in table.items():
        if key not in _TYPES:
            raise BadRow("the field %s isn't known" % key)
        if not isinstance(value, _TYPES[key]):
            raise BadRow("the value of %s is of another kind" % key)
    for key in ("name", "words"):
        if key not in table:
            raise BadRow("the field %s is missing" % key)
    if sum(table.get(key, False) for key in ("stable", "round", "every_call")) > 1:
        raise BadRow("only one of stable, round and every_call may be set")
    if not _NAME.fullmatch(table["name"]):
        raise BadRow("the name isn't made of lower-case words joined by -")


def row_of(table: Dict[str, Any]) -> Row:
    """The row of a table `[[row]]`. Raises `BadRow`, `BadText`."""
    _checked(table)
    values = dict(table)
    try:
        values["before"] = [Saved(**run) for run in table.get("before", [])]
        values["families"] = [Printed(**printed) for printed in table.get("families", [])]
    except TypeError as error:
        raise BadRow(str(error)) from None
    row = Row(**values)
    for value in [*row.words, row.stdout, row.stderr]:
        text_bytes(value)
    for value in [*row.files.values(), *row.then.values()]:
        if not link_target(value):
            text_bytes(value)
    return row


def rows_of_text(text: str, path: str, seen: Dict[str, str]) -> List[Row]:
    """The rows of a file; `seen` holds the names so far, each with its file. Raises `BadRow` with the file and the name."""
    try:
        document = parse_toml(text)
    except ValueError as error:
        raise BadRow("%s: %s" % (path, error)) from None
    if set(document) - {"row"} or not isinstance(document.get("row", []), list):
        raise BadRow("%s: there is something other than [[row]]" % path)
    rows = []
    for number, table in enumerate(document.get("row", []), 1):
        place = "%s: %s" % (path, table.get("name", "row %d" % number))
        try:
            row = row_of(table)
        except (BadRow, BadText) as error:
            raise BadRow("%s: %s" % (place, error)) from None
        if row.name in seen:
            raise BadRow("%s: %s has a row of this name too" % (place, seen[row.name]))
        seen[row.name] = path
        rows.append(row)
    return rows


def load_rows(folder: Path = ROWS) -> List[Row]:
    """All rows, in the order of the names of their files. Raises `BadRow`."""
    seen: Dict[str, str] = {}
    rows: List[Row] = []
    for path in sorted(folder.glob("*.toml")):
        rows += rows_of_text(path.read_text(encoding="utf-8"), path.name, seen)
    return rows


def write_files(folder: Path, files: Dict[str, Any]) -> None:
    """Writes the files of a row below a folder; a path that ends in / is an empty folder."""
    for path, value in files.items():
        place = folder / path
        (place if path.endswith("/") else place.parent).mkdir(parents=True, exist_ok=True)
        if path.endswith("/"):
            continue
        if link_target(value):
            place.symlink_to(link_target(value))
        else:
            place.write_bytes(text_bytes(value))


def _words(values: Iterable[Any]) -> List[str]:
    return [text_bytes(value).decode("utf-8") for value in values]


def _same(what: str, got: str, expected: Any) -> None:
    wanted = text_bytes(expected).decode("utf-8") if not isinstance(expected, str) else expected
    if got != wanted:
        raise Failed("%s is %s\n      and should be %s" % (what, shortened(repr(got)), shortened(repr(wanted))))


@dataclass(frozen=True)
class _Run:
    """A row in a folder of its own."""

    row: Row
    program: Program
    folder: Path

    def answer(self, words: List[str]) -> Answer:
        return self.program.run(words, self.folder, seconds=1200)

    def prepare(self) -> None:
        write_files(self.folder, self.row.files)
        for run in self.row.before:
            answer = self.answer(_words(run.words))
            if answer.status not in (0, 1):
                raise Failed("the run before it ended with status %d: %s" % (answer.status, answer.stderr))
            (self.folder / run.save).write_bytes(answer.stdout.encode("utf-8"))
        write_files(self.folder, self.row.then)

    def judge(self) -> None:
        """Raises `Failed` where the program doesn't answer what the row says."""
        self.prepare()
        words = _words(self.row.words)
        answer = self.answer(words)
        if self.row.round:
            answer = self.verified(words, answer)
        _same("standard error", answer.stderr, self.row.stderr)
        self.judge_output(words, answer.stdout)
        _same("the status", str(answer.status), str(self.row.status))
        if self.row.stable:
            _same("the output of a second run", self.answer(words).stdout, answer.stdout)

    def verified(self, words: List[str], made: Answer) -> Answer:
        """The answer of `verify` to the certificate that `prove` made."""
        _same("standard error of prove", made.stderr, "")
        _same("the status of prove", str(made.status), "0")
        (self.folder / "certificate.json").write_bytes(made.stdout.encode("utf-8"))
        return self.answer(["verify"] + words[1:] + ["certificate.json"])

    def judge_output(self, words: List[str], output: str) -> None:
        if self.row.begins:
            if not output.startswith(self.row.begins) or output.count("\n") != 1 or not output.endswith("\n"):
                raise Failed("standard output isn't one line that begins with %r: %s"
                             % (self.row.begins, shortened(repr(output))))
        elif self.row.family >= 0:
            mode = words[words.index("--mode") + 1] if "--mode" in words else "fullmatch"
            self.judge_families(output, [Printed(words[-1], mode)], self.row.family)
        else:
            self.judge_families(output, self.row.families, _GREATEST_K)

    def judge_families(self, output: str, expected: List[Printed], greatest: int) -> None:
        """Takes the lines of families out, tries each, and compares what is left."""
        rest: List[str] = []
        left = list(expected)
        for line in output.splitlines(keepends=True):
            if not line.startswith("  family ") or not expected:
                rest.append(line)
                continue
            if not left:
                raise Failed("a family too many: %r" % line)
            self.judge_family(line.rstrip("\n"), left.pop(0), rest[-1].rstrip("\n").rsplit(": ", 1)[-1], greatest)
        _same("standard output%s" % (" without the families" if expected else ""), "".join(rest), self.row.stdout)
        if left:
            raise Failed("%d families are missing" % len(left))

    def judge_family(self, line: str, printed: Printed, verdict: str, greatest: int) -> None:
        """Asks `relint cost` whether the texts of a family cost what the verdict says."""
        family = families.read_family(line)
        if not family.fits(verdict):
            raise Failed("%s isn't shown by %r" % (verdict, line))
        for k in range(greatest + 1):
            text = family.text(k)
            if "\0" in text:
                return
            answer = self.answer(["cost", "--mode", printed.mode, "--", printed.pattern, text])
            steps = families.steps_of(answer.stdout)
            if steps < families.least_steps(verdict, k):
                raise Failed("the text for %d costs %d steps, less than %d: %r"
                             % (k, steps, families.least_steps(verdict, k), line))


def run_row(row: Row, program: Program) -> None:
    """Runs a row in a scratch folder. Raises `Failed` or `Skipped`."""
    if row.needs_failing_calls():
        raise Skipped("it needs calls that fail")
    with tempfile.TemporaryDirectory() as scratch:
        try:
            _Run(row, program, Path(scratch)).judge()
        except OSError as error:
            raise Failed(str(error)) from None


def run(program: Program) -> Result:
    """Runs each row, over as many processors as there are. Rows that need failing calls aren't counted."""
    return run_some(program, "")


def run_some(program: Program, wanted: str) -> Result:
    """Runs the rows that have this in their names; a row that is named so and needs failing calls is skipped."""
    result = Result()
    try:
        named = [row for row in load_rows() if wanted in row.name]
    except (BadRow, OSError) as error:
        result.fail("the files of rows", str(error))
        return result
    rows = [row for row in named if not row.needs_failing_calls()]
    for row in (it for it in named if wanted and it.needs_failing_calls()):
        result.skip(row.name, "it needs calls that fail")
    if not named:
        result.fail(wanted, "no row has this in its name")
    with concurrent.futures.ThreadPoolExecutor(os.cpu_count() or 1) as pool:
        for row, reason in zip(rows, pool.map(lambda row: _reason(row, program), rows)):
            if reason:
                result.fail(row.name, reason)
            else:
                result.passed += 1
    return result


def _reason(row: Row, program: Program) -> str:
    """Why a row fails, "" where it passes."""
    try:
        run_row(row, program)
    except Failed as failure:
        return str(failure)
    return ""
