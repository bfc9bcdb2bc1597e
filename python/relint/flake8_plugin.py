"""The plugin of flake8: each finding is a violation with its code, RLT100 and so on.

flake8 itself chooses the files, and leaves out codes by `# noqa` or by its own settings. Only flake8 imports this module.
"""
from __future__ import annotations

import ast
import importlib
import os
from typing import Dict, Iterator, Sequence, Tuple, Type

from .base.model import NEW
from .base.safe import line, visible
from .base.words import danger, outcome, rule_of
from .engine.program import ProgramError, located
from .options import version
from .stages.buffer import Judge, NotJudged

Violation = Tuple[int, int, str, Type["Plugin"]]
NOT_READ = "RLT203"
# The judge of each process, by its number: flake8 forks some.
JUDGES: Dict[int, Judge] = {}


class Plugin:
    """The plugin. flake8 creates one for each file, and gives it the file's tree, name and lines; the tree isn't used."""

    name = "relint"
    version = version()

    def __init__(self, tree: ast.AST, filename: str, lines: Sequence[str]) -> None:
        """Takes the file's tree, its name, which is "-" or "stdin" for standard input, and its lines with their ends."""
        self._path = "stdin.py" if filename in ("-", "stdin") else filename
        self._text = "".join(lines)

    @classmethod
    def parse_options(cls, options: object) -> None:
        """Raises flake8's ExecutionError if relint isn't there, can't be run or isn't relint; `options` isn't used."""
        try:
            located("relint")
        except ProgramError as error:
            failure = importlib.import_module("flake8.exceptions").ExecutionError
            raise failure(f"relint: {visible(str(error))}") from error

    def run(self) -> Iterator[Violation]:
        """Yields the violations: line from 1, column from 0, text, and this class; without a place, line 1 and column 0.

        Yields none for a file that the configuration leaves out, and NOT_READ with the reason if there is no answer.
        """
        # (an error that is raised here stops flake8's own processes for good)
        judge = JUDGES.setdefault(os.getpid(), Judge(has_own_comments=True))
        try:
            opened = judge.judged(self._text, self._path)
        except NotJudged as error:
            yield 1, 0, line(f"{NOT_READ} not judged: {error}"), Plugin
            return
        if opened is None:
            return
        run = opened.run
        for it in opened.findings:
            # (with `strict` in the configuration, what isn't decided or judged is a violation too)
            is_strict = run.options.strict and it.fails_strictly(run.options.max_degree)
            if it.state == NEW or it.entry.call is None or is_strict:
                words = danger(it, run.steps_a_second) if it.state == NEW else outcome(it)
                yield it.place.line, it.place.column - 1, line(f"{rule_of(it)} {words}"), Plugin
        for why in opened.lost:
            yield 1, 0, line(f"{NOT_READ} not judged: {why}"), Plugin
