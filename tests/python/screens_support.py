"""Findings that are made by hand, for tests of screens, formats and the accepted file: no program is run."""
from __future__ import annotations

import contextlib
import io
import sys
import types
from dataclasses import replace
from typing import Any, Iterator, List, NamedTuple, Optional, Sequence, Tuple
from unittest import mock

from relint import cli
from relint.base.model import (
    BEYOND, NEW, Decision, Entry, Family, Finding, Growth, Literal, Offer, Place, Reading, Site, Span, Step, Summary, Verdict,
    Why,
)

ROWS, SUBNET = r"^(\w+,?)*$", r"\s+(.+), subnet"
SUMMARY = Summary(1, 5, 0.31, version="2.0.0")
EXPONENTIAL, CUBIC = Verdict("exponential", family=Family(("000", " "), ("00",))), Verdict("degree", 3)


def site(pattern: str, start: int, **more: Any) -> Site:
    """A pattern whose raw literal begins at an offset of the source."""
    text, offsets = f'r"{pattern}"', tuple(range(start + 2, start + 3 + len(pattern)))
    return Site(pattern, 0, (Literal(text, start, start + len(text)),), offsets, **more)


def step(place: Optional[Span], *took: Tuple[Span, str]) -> Step:
    """The reading of a character."""
    return Step(place, tuple(Decision(at, side) for at, side in took))


def exponential(**more: Any) -> Finding:
    """An exponential finding with all that a run finds out about it."""
    part, inner, loop = (2, 4), (2, 5), (1, 9)
    stay, leave = step(part, (inner, "round")), step(part, (inner, "stop"), (loop, "round"))
    given = dict(
        entry=Entry("app.py", "exponential", Place(2, 19), "compile", EXPONENTIAL), state=NEW, site=site(ROWS, 28),
        growth=Growth(13, 30, 2684354560, 4.0), why=Why((Reading("00", ((stay, leave), (leave, leave)), 0),)),
        offers=(Offer("fix", r"^(?:(?:\w+,)*(\w+,?))?$", r'r"^(?:(?:\w+,)*(\w+,?))?$"', Verdict("degree", 1)),),
        lines=((2, f'ROWS = re.compile(r"{ROWS}")'),))
    return Finding(**{**given, **more})  # type: ignore[arg-type]


def cubic(**more: Any) -> Finding:
    """A cubic finding with all that a run finds out about it."""
    first, second = (0, 2), (4, 5)
    skipped = Reading("\n\t", ((step(None),) * 2, (step(first),) * 2, (step(first),) * 2), None, (None, (0, 3)))
    shared = Reading("\t", ((step(first),), (step(second),), (step(second),)), None, ((0, 3), (4, 6)))
    family = Family(("", "", ""), ("\t", "\t"))
    given = dict(
        entry=Entry("app.py", "degree", Place(5, 22), "search", Verdict("degree", 3, family=family)), state=NEW,
        site=site(SUBNET, 121, function="read"), growth=Growth(800, 1600, 1_100_000_000), why=Why((skipped, shared)),
        offers=(Offer("fix", r"\s+(\S.*|[^\S\n]), subnet", r'r"\s+(\S.*|[^\S\n]), subnet"', Verdict("degree", 2)),),
        lines=((5, f'    return re.search(r"{SUBNET}", s)'),))
    return Finding(**{**given, **more})  # type: ignore[arg-type]


def refused(cause: str = "lookaround") -> Finding:
    """A pattern that isn't judged."""
    entry = Entry("app.py", "refused", Place(9, 5), "search", cause=cause, fault=Place(9, 7))
    return Finding(entry, site=site("(?=ab)b", 300), lines=((9, 're.search(r"(?=ab)b", s)'),))


def beyond(verdict: Verdict = EXPONENTIAL, **more: Any) -> Finding:
    """A pattern that only relint-ask judges, with this class."""
    classes, line = {"search": replace(verdict, beyond=("lookaround",))}, 're.search(r"(?!x)(a|a)*b", s)'
    entry = Entry("app.py", "refused", Place(7, 11), "search", cause="lookaround", fault=Place(7, 13))
    given = dict(entry=entry, known=BEYOND, state=NEW, site=site("(?!x)(a|a)*b", 200), by_mode=classes,
                 growth=Growth(13, 30, 2684354560, 2.0), lines=((7, line),))
    return Finding(**{**given, **more})  # type: ignore[arg-type]


def undecided() -> Finding:
    """A pattern that isn't decided."""
    verdict = Verdict("undecided", limit="pairs", over=600)
    return Finding(Entry("app.py", "undecided", Place(11, 5), "search", verdict), site=site("a{64}", 400))


class Ran(NamedTuple):
    """What a run of the command gave."""

    status: int
    out: str
    err: str


class _Out(io.TextIOWrapper):
    """A stream whose bytes are kept."""

    def __init__(self) -> None:
        super().__init__(io.BytesIO(), encoding="utf-8", newline="\n")

    def text(self) -> str:
        """What was written."""
        self.flush()
        return self.buffer.getvalue().decode("utf-8")  # type: ignore[attr-defined,no-any-return]


def rlt(*words: str) -> Ran:
    """Runs the command in this process."""
    out, err = _Out(), _Out()
    with contextlib.redirect_stdout(out), contextlib.redirect_stderr(err):
        status = cli.main(list(words))
    return Ran(status, out.text(), err.text())


@contextlib.contextmanager
def pipeline(findings: Sequence[Finding], summary: Summary = SUMMARY, status: int = 1) -> Iterator[List[Any]]:
    """Lets a run give these findings, and yields the options that it is given."""
    seen: List[Any] = []
    module = types.ModuleType("relint.stages.pipeline")

    def run(options: Any, progress: Any = None) -> Tuple[List[Finding], Summary]:
        """Stands for `pipeline.run`."""
        seen.append(options)
        return list(findings), summary

    module.run, module.status_of = run, lambda *_: status  # type: ignore[attr-defined]
    name, before = "relint.stages.pipeline", sys.modules.get("relint.stages.pipeline")
    sys.modules[name] = module
    try:
        with mock.patch("relint.stages.pipeline", module, create=True):
            yield seen
    finally:
        # (all of `sys.modules` can't be put back as it was: extension modules don't stand to be loaded twice)
        del sys.modules[name]
        sys.modules.update({name: before} if before is not None else {})
