"""Finds the patterns that the program doesn't read in the sources itself, by pieces for the pool, and judges them.

First the bytes of all files show which ones can have such a pattern; only these are parsed. Then, for a pattern that may be a
finding, all files of the project are asked whether they change what it is made of: such a pattern isn't known.
"""
from __future__ import annotations

from typing import Any, Dict, Iterator, List, NamedTuple, Sequence, Set, Tuple

from ..base.model import Finding, Holder, Literal, NotLooked, Place, Site
from ..base.safe import OpenError, read_named
from ..code.places import TakersError, rows_in, taker_of
from ..code.texts import Need
from ..engine.run import Run
from . import beyond
from .beyond import Placed

# Causes for which the program doesn't know the pattern of a call.
NOT_KNOWN = frozenset(("not-whole", "f-string", "flags-unknown", "named-escape", "bad-escape", "mixed"))
FILES_A_PIECE, LARGEST_TABLE = 128, 1 << 20
FILES_OF_PYTHON = (".py", ".pyw")
TOO_MANY = "patterns by name and in pieces aren't looked at: the project has too many files"


class _Row(NamedTuple):
    """A place with the names on which its pattern depends."""

    placed: Placed
    needs: Tuple[Need, ...]


def reached(findings: Sequence[Finding], run: Run) -> List[Finding]:
    """Returns the findings with those of the patterns that the program doesn't read itself. Raises ProgramError."""
    if run.options.reports or run.is_late():
        return list(findings)
    own = {(it.entry.path, it.entry.place): it for it in findings if it.entry.place is not None and it.entry.call is not None}
    wanted = {at for at, it in own.items() if it.entry.kind == "refused" and it.entry.cause in NOT_KNOWN}
    rows = [it for it in _rows(wanted, run) if (it.placed.path, it.placed.place) not in own.keys() - wanted]
    judged = beyond.judged([it.placed for it in rows], run)
    changed = _changed([need for row, it in zip(rows, judged) if row.needs and _matters(it, run) for need in row.needs], run)
    found = [it for row, it in zip(rows, judged) if not changed.intersection(row.needs)]
    at = {(it.entry.path, it.entry.place) for it in found}
    kept = [it for it in findings if (it.entry.path, it.entry.place) not in at]
    return beyond.together([*run.chosen.files, *run.chosen.notebooks], kept, found) if found else list(findings)


def _rows(wanted: Set[Any], run: Run) -> List[_Row]:
    """The places with known patterns; `wanted` are those of literals that the program doesn't judge."""
    given: Dict[str, Any] = {"wide": run.options.wide, "rows": _takers(run)}
    opened: Dict[str, List[List[int]]] = {}
    for path, place in wanted:
        opened.setdefault(path, []).append([place.line, place.column])
    paths = [*_sifted(given, opened, run), *run.chosen.notebooks]
    pieces: List[Dict[str, Any]] = [{"do": "places", "path": it, "open": opened.get(it, []), **given} for it in paths]
    if run.chosen.data is not None:
        pieces[0]["data"] = run.chosen.data.decode("latin-1")
    rows: List[_Row] = []
    lost = {it.path for it in run.not_looked}
    for index, answer in run.pool.answers(pieces):
        path = paths[index]
        try:
            why = str(answer["why"])
            rows += _read(path, answer["rows"], run.options.mode)
            left = [int(it) for it in answer["left"]]
        except (TypeError, ValueError, KeyError, AttributeError):
            why, left = run.pool.why(index) or "no answer could be read", []
        if why and path in run.chosen.notebooks:
            run.not_looked.append(NotLooked(path, why))
        elif why and path not in lost:
            run.not_looked.append(NotLooked(path, f"patterns by name and in pieces: {why}", is_part=True))
        run.not_looked += [NotLooked(f"{path}, cell {it}", "this Python can't parse it", is_part=True) for it in left]
    return rows


def _sifted(given: Dict[str, Any], opened: Dict[str, Any], run: Run) -> Iterator[str]:
    """Yields the files whose bytes show that they can have a pattern that the program doesn't read."""
    if run.chosen.data is not None:
        yield from run.chosen.files
        return
    parts = [run.chosen.files[at:at + FILES_A_PIECE] for at in range(0, len(run.chosen.files), FILES_A_PIECE)]
    hits = set(opened)
    for index, answer in run.pool.answers([{"do": "sift", "paths": it, **given} for it in parts]):
        hits.update(parts[index][it] for it in answer or () if isinstance(it, int) and 0 <= it < len(parts[index]))
    yield from (it for it in run.chosen.files if it in hits)


def _takers(run: Run) -> List[Any]:
    """The right rows of the tables of takers that the options name; a wrong one is noted."""
    given: List[Tuple[Any, str]] = []
    table = run.options.wide_table.get("taker", [])
    given += [(it, "the configuration") for it in (table if isinstance(table, list) else [table])]
    for path in run.options.takers:
        try:
            given += [(it, path) for it in rows_in(read_named(path, LARGEST_TABLE).decode("utf-8"), path)]
        except (OpenError, ValueError, TakersError) as error:
            run.notes.append(f"{path}: {error}")
    rows: List[Any] = []
    for number, (row, where) in enumerate(given, 1):
        try:
            taker_of(row, f"{where}: row {number} of takers")
            rows.append(row)
        except TakersError as error:
            run.notes.append(f"{error}; it is left out")
    return rows


def _read(path: str, rows: Sequence[Any], mode: str) -> Iterator[_Row]:
    """Yields the places of a file, as a worker says; raises TypeError, ValueError and the like for another form."""
    for place, call, its_mode, site, needs, lines in rows:
        (is_bytes, text), flags, literals, offsets, function, in_tests, *more = site
        end, taker, holders, notes, stands_in, cell = more
        found = Site(text.encode("latin-1") if is_bytes else text, int(flags), tuple(Literal(*it) for it in literals),
                     tuple(offsets), None if literals else Place(*end), function, in_tests, taker,
                     tuple(Holder(*it) for it in holders), tuple(notes), bool(stands_in), cell)
        shown = tuple((int(number), str(line)) for number, line in lines)
        yield _Row(Placed(path, Place(*place), str(call), its_mode or mode, found, shown), tuple(Need(*it) for it in needs))


def _matters(finding: Finding, run: Run) -> bool:
    """Whether it matters that a pattern is known: it may be a finding, or must be known to be none."""
    options, verdict = run.options, finding.entry.verdict
    if options.strict or options.trials:
        return True
    if verdict is None:
        return False
    degree = options.max_degree if options.warn_degree is None else min(options.max_degree, options.warn_degree)
    if verdict.is_finding(degree) or verdict.is_open(options.max_degree):
        return True
    # (a fullmatch may cost more than a search)
    return finding.entry.call == "compile" and b"fullmatch" in run.data(finding.entry.path)


def _changed(needs: Sequence[Need], run: Run) -> Set[Need]:
    """Those of the names that another file may change."""
    asked = list(dict.fromkeys(needs))
    if not asked:
        return set()
    files = run.chosen.project(FILES_OF_PYTHON)
    if files is None or run.is_late():
        run.notes.append(TOO_MANY)
        return set(asked)
    parts = [files[at:at + FILES_A_PIECE] for at in range(0, len(files), FILES_A_PIECE)]
    changed: Set[Need] = set()
    for index, answer in run.pool.answers([{"do": "changes", "paths": it, "needs": asked} for it in parts]):
        if isinstance(answer, list):
            changed.update(asked[it] for it in answer if isinstance(it, int) and 0 <= it < len(asked))
        else:
            run.notes.append(f"{parts[index][0]} and others can't be searched: {run.pool.why(index)}")
            changed.update(asked)
    return changed
