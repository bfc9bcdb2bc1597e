"""The layouts for programs: one line a finding, GitHub's annotations, GitLab's Code Quality, SARIF 2.1.0, and JSON.

Each is a function `layout(findings, summary, options)` that yields lines. Each has what the last lines for people say too.
Fingerprints are made of pattern, flags, mode and function, so they stay the same if lines or files move.
"""
from __future__ import annotations

import hashlib
import json
import os
import re
from typing import Any, Dict, Iterable, Iterator, Optional, Sequence, Tuple
from urllib.parse import quote

from ..base.model import (
    ACCEPTED, IGNORED, KNOWN, NEW, OTHER, PROVED, UNUSED, Bound, Entry, Family, Finding, Place, Summary, Verdict,
)
from ..base.safe import SERVER_COMMAND, line, visible
from ..base.words import (
    CAUSES, RULES, address_of, class_word, danger, flag_letters, offer_words, outcome, quoted, rule_of, rule_text, try_line,
)
from ..options import Options
from ..stages.accept import key_of
from .terminal import (
    CTRL_C, accepts, class_of, drawn, facts, is_shown, line_starts, other_words, others, result, rows, why_words,
    worst_first,
)

NAME, SCHEMA = "relint", "https://json.schemastore.org/sarif-2.1.0.json"
STOPS = "Whoever can send such a text can stop this program (ReDoS, CWE-1333)."
SEVERITIES, PRINTS = {"error": "7.5", "warning": "5.0"}, "relintPattern/v2"


def _dumped(value: Any) -> str:
    """A value as JSON on one line, in ASCII, of which a build server takes no part for a command."""
    return SERVER_COMMAND.sub(r"#\\u0023", json.dumps(value, separators=(",", ":"), sort_keys=True))


def _level(finding: Finding) -> str:
    """The level of an entry: error for an exponential finding, warning for another one, note for what is none."""
    if finding.state == OTHER:
        return "note"
    return "error" if class_of(finding) == "exponential" else "warning"


def _message(finding: Finding, summary: Summary) -> str:
    """What is said of a finding, in lines: the danger, why, the fix, a command that shows it, and where there is more."""
    parts = [danger(finding, summary.steps_a_second)]
    why = why_words(finding)
    parts += [f"why: {why}"] if why else []
    parts += [f"note: {visible(finding.reason)}"] if finding.reason else []
    parts += [f"note: {visible(it)}" for it in (finding.site.said if finding.site else ())]
    parts.append(STOPS)
    parts += [f"{it.kind}: put {visible(it.literal)} in its place    {offer_words(it)}" for it in finding.offers]
    parts += [] if finding.offers else ["fix: none was found; rlt explain fixing shows how such patterns are rewritten"]
    code = try_line(finding)
    parts += [f"try: {code}  {CTRL_C}"] if code else []
    return "\n".join([*parts, f"more: {address_of(rule_of(finding)) or f'rlt explain {rule_of(finding)}'}"])


def _remarks(finding: Finding) -> str:
    """Says in brackets why a finding isn't accepted, that words stand for unknown parts of it, or that it is in a test."""
    site = finding.site
    said = [finding.reason] * bool(finding.reason)
    said += site.said if site is not None and (site.stands_in or site.in_tests) else ()
    return f" ({'; '.join(map(visible, said))})" if said else ""


def _prints(findings: Iterable[Finding]) -> Iterator[Tuple[Finding, str]]:
    """Yields each finding with its fingerprint: of pattern, flags, mode and function, and the number among equal ones."""
    met: Dict[str, int] = {}
    for it in findings:
        name = json.dumps(key_of(it) or (it.entry.path, it.entry.call, it.entry.kind, it.entry.cause))
        met[name] = met.get(name, 0) + 1
        yield it, hashlib.sha256(f"{name} {met[name]}".encode("ascii")).hexdigest()


# ---- lines

def concise(findings: Sequence[Finding], summary: Summary, options: Options) -> Iterator[str]:
    """Yields a line for each finding, and the last lines."""
    for it in summary.clock.within(worst_first(findings)):
        yield f"{_place(it)}: {rule_of(it)} {danger(it, summary.steps_a_second)}{_remarks(it)}"
    rest = summary.clock.within(others(findings, options))
    yield from (f"{_place(it)}: {rule_of(it)} {other_words(it)}" for it in rest)
    yield result(findings)
    yield from map(line, facts(findings, summary, options))


def _place(finding: Finding) -> str:
    """The path, the line and the column of an entry."""
    place = finding.entry.place
    return line(finding.entry.path) + (f":{place.line}:{place.column}" if place else "")


def github(findings: Sequence[Finding], summary: Summary, options: Options) -> Iterator[str]:
    """Yields an annotation for each finding, and for each accept that the change adds; then the last lines.

    An error is what fails the run, and nothing else.
    """
    for it in summary.clock.within(worst_first(findings)):
        yield annotation("error" if it.state == NEW else "warning", it, _message(it, summary))
    for it in summary.clock.within(others(findings, options)):
        fails = options.strict and it.fails_strictly(options.max_degree)
        yield annotation("error" if fails else "notice", it, other_words(it))
    for lost in summary.clock.within([it for it in summary.not_looked if it.fails or options.strict]):
        at = [("file", lost.path), ("title", f"{NAME} RLT203")]
        yield command("error", at, f"not looked at: {CAUSES.get(lost.why, lost.why)}")
    for path, row, why in summary.added_accepts:
        yield command("notice", [("file", path), ("line", str(row))], accepts(why, options))
    for narrowed in summary.narrowed or options.narrowed:
        yield command("notice", [("file", narrowed.source)], f"configuration: {narrowed.what} narrows this check")
    yield result(findings)
    yield from map(line, facts(findings, summary, options))


def annotation(level: str, finding: Finding, message: str) -> str:
    """Returns the workflow command that shows a message at the place of an entry."""
    place = finding.entry.place
    at = [("line", str(place.line)), ("col", str(place.column))] if place else []
    return command(level, [("file", finding.entry.path), *at, ("title", f"{NAME} {rule_of(finding)}")], message)


def command(level: str, properties: Sequence[Tuple[str, str]], message: str) -> str:
    """Returns a workflow command, in which neither a name nor a message can begin another one."""
    parts = ",".join(f"{name}={_data(value).replace(':', '%3A').replace(',', '%2C')}" for name, value in properties)
    return f"::{level} {parts}::{_data(message)}"


def _data(text: str) -> str:
    """A text as the message of a workflow command: `%` and line ends are coded, the rest is as in `visible`."""
    coded = {"%": "%25", "\r": "%0D", "\n": "%0A"}
    return "".join(coded.get(it) or visible(it) for it in re.split("([%\r\n])", text))


# ---- GitLab

def gitlab(findings: Sequence[Finding], summary: Summary, options: Options) -> Iterator[str]:
    """Yields a Code Quality report, on one line; what the last lines say are issues of the severity info."""
    issues = []
    severities = {"error": "critical", "warning": "major", "note": "info"}
    for it, print_of_it in _prints(summary.clock.within([*worst_first(findings), *others(findings, options)])):
        words, more = other_words(it), {}
        if is_shown(it):
            fixes = [f"; {offer.kind}: {visible(offer.literal)}" for offer in it.offers[:1]]
            words = f"{danger(it, summary.steps_a_second)}{_remarks(it)}{''.join(fixes)}"
            more = {"severity": severities[_level(it)], "content": {"body": _message(it, summary)}}
        issues.append({**_issue(rule_of(it), words, print_of_it, (it.entry.path, it.place.line)), **more})
    accepted = [(path, at, accepts(why, options)) for path, at, why in summary.added_accepts]
    place = options.config or (findings[0].entry.path if findings else "pyproject.toml")
    for path, at, words in [*accepted, *((place, 1, it) for it in facts(findings, summary, options))]:
        print_of_it = hashlib.sha256(f"{path} {words}".encode("utf-8", "backslashreplace")).hexdigest()
        issues.append(_issue(NAME, visible(words), print_of_it, (path, at)))
    yield _dumped(issues)


def _issue(rule: str, words: str, print_of_it: str, place: Tuple[str, int]) -> Dict[str, Any]:
    """An issue of Code Quality of the severity info."""
    path, said = visible(os.path.normpath(place[0])), f"{rule} {words}" if rule != NAME else words
    return {"type": "issue", "check_name": rule, "description": said, "severity": "info", "categories": ["Security"],
            "fingerprint": print_of_it, "location": {"path": path, "lines": {"begin": place[1]}}}


# ---- SARIF

def sarif(findings: Sequence[Finding], summary: Summary, options: Options) -> Iterator[str]:
    """Yields the report in SARIF 2.1.0, on one line: findings, also accepted and ignored ones, and what isn't judged."""
    shown = [it for it in findings if is_shown(it) or it.state in (ACCEPTED, IGNORED, KNOWN)
             or it.fails_strictly(options.max_degree)]
    codes = sorted({rule_of(it) for it in shown})
    first = {rule_of(it): it for it in reversed(shown)}
    results = [{**_result(it, summary, options, codes.index(rule_of(it))), "partialFingerprints": {PRINTS: mark}}
               for it, mark in _prints(summary.clock.within(shown))]
    driver = {"name": NAME, "rules": [_rule(first[it]) for it in codes], "version": summary.version or "0",
              "semanticVersion": summary.version or "0.0.0"}
    notes = [{"level": "note", "message": {"text": it}} for it in facts(findings, summary, options)]
    run: Dict[str, Any] = {
        "columnKind": "unicodeCodePoints", "results": results, "tool": {"driver": driver},
        "invocations": [{"executionSuccessful": not (summary.late or summary.clock.left),
                         "toolExecutionNotifications": notes}],
    }
    yield _dumped({"$schema": SCHEMA, "runs": [run], "version": "2.1.0"})


def _rule(finding: Finding) -> Dict[str, Any]:
    """The description of a finding's rule, with its text in the page of rules as help."""
    code, level = rule_of(finding), _level(finding)
    name, short = RULES[code]
    text = (rule_text(code) or ("", short))[1]
    precision = "very-high" if finding.known == PROVED else "high"
    properties: Dict[str, Any] = {"precision": precision, "tags": ["CWE-1333"]}
    if level in SEVERITIES:
        properties.update({"tags": ["security", "CWE-1333", "external/cwe/cwe-1333"], "problem.severity": level,
                           "security-severity": SEVERITIES[level]})
    address = address_of(code)
    return {
        "id": code, "name": name, "shortDescription": {"text": short}, "fullDescription": {"text": short + "."},
        "help": {"markdown": text, "text": text}, "defaultConfiguration": {"level": level}, "properties": properties,
        **({"helpUri": address} if address else {}),
    }


def _uri(path: str) -> str:
    """A path as a URI; a relative path stays relative."""
    try:
        data = path.encode("utf-8", "surrogateescape")
    except UnicodeEncodeError:
        data = path.encode("utf-8", "backslashreplace")
    return ("file://" if os.path.isabs(path) else "") + quote(data, safe="/-._~")


def region(finding: Finding) -> Optional[Dict[str, int]]:
    """Returns the region of a finding's pattern in its file; only its start if the end isn't known, None without a place."""
    place, site = finding.entry.place, finding.site
    if place is None:
        return None
    found = {"startLine": place.line, "startColumn": place.column}
    starts = line_starts(finding)
    if site is not None and site.end is not None:
        found.update(endLine=site.end.line, endColumn=site.end.column)
    elif site is not None and starts:
        end = site.literals[-1].end
        number = max(it for it in starts if starts[it] <= end)
        if end - starts[number] <= len(dict(finding.lines).get(number, "")):
            found.update(endLine=number, endColumn=end - starts[number] + 1)
    return found


def _result(finding: Finding, summary: Summary, options: Options, index: int) -> Dict[str, Any]:
    """The result for an entry but for its fingerprint; `index` is that of its rule."""
    where, at = {"uri": _uri(finding.entry.path)}, region(finding)
    found: Dict[str, Any] = {
        "level": _level(finding), "ruleId": rule_of(finding), "ruleIndex": index,
        "locations": [{"physicalLocation": {"artifactLocation": where, **({"region": at} if at else {})}}],
        "message": {"text": _message(finding, summary) if finding.state != OTHER else outcome(finding)},
    }
    if finding.state in (ACCEPTED, IGNORED):
        kind = "external" if finding.state == ACCEPTED else "inSource"
        found["suppressions"] = [{"kind": kind, "status": "accepted", "justification": finding.reason or "a noqa comment"}]
    if options.baseline_commit:
        found["baselineState"] = "unchanged" if finding.state == KNOWN else "new"
    if at is not None and "endLine" in at and finding.is_own:
        found["fixes"] = [_fix(it.literal, offer_words(it), where, at) for it in finding.offers if it.kind == "fix"]
    return {key: it for key, it in found.items() if it != []}


def _fix(literal: str, words: str, where: Dict[str, str], at: Dict[str, int]) -> Dict[str, Any]:
    """A fix, which replaces the literals of the pattern."""
    change = {"deletedRegion": at, "insertedContent": {"text": literal}}
    return {"artifactChanges": [{"artifactLocation": where, "replacements": [change]}], "description": {"text": words}}


# ---- JSON

def json_report(findings: Sequence[Finding], summary: Summary, options: Options) -> Iterator[str]:
    """Yields the report in JSON, on one line: the report of `relint check`, version 2, with what `rlt` adds under `rlt`.

    `entries` are those that the program read in the sources itself, also those that only relint-ask judges, and `beyond` the
    others. All numbers are whole.
    """
    rows_of_all = [(it, {**entry_json(it.entry), "rlt": added(it, summary)}) for it in summary.clock.within(findings)]
    own = [it for it in findings if it.is_own]
    whole = {
        "entries": [row for it, row in rows_of_all if it.is_own],
        "beyond": [row for it, row in rows_of_all if not it.is_own],
        "findings": sum(it.verdict is not None and it.verdict.is_finding(options.max_degree) for it in own),
        "refused": sum(it.entry.kind not in ("degree", "exponential", "undecided") for it in own),
        "undecided": sum(it.entry.kind == "undecided" for it in own), "version": 2,
        "rlt": {"version": summary.version, "files": summary.files, "patterns": summary.patterns,
                "late": summary.late or summary.clock.left > 0, "milliseconds": round(summary.seconds * 1000),
                "facts": facts(findings, summary, options)},
    }
    yield _dumped(whole)


def entry_json(entry: Entry) -> Dict[str, Any]:
    """Returns an entry as values for JSON, with the keys of the program's own report."""
    found: Dict[str, Any] = _plain(entry)
    found.update({**found.pop("place", {}), **found.pop("verdict", {})})
    if entry.suggest is not None:
        found["suggest"] = quoted(entry.suggest)
    elif not (entry.dropped or entry.merged or entry.passed):
        found = {key: it for key, it in found.items() if key not in ("dropped", "merged", "passed")}
    return found


def _plain(value: Any) -> Any:
    """A part of an entry as values for JSON; what isn't known is left out."""
    if isinstance(value, Family):
        return {"heads": list(map(quoted, value.heads)), "pumps": list(map(quoted, value.pumps))}
    if isinstance(value, (Entry, Place, Verdict, Bound)):
        return {key.replace("_", "-"): _plain(it) for key, it in vars(value).items() if it is not None}
    return list(map(_plain, value)) if isinstance(value, tuple) else value


def added(finding: Finding, summary: Summary) -> Dict[str, Any]:
    """Returns what `rlt` knows of a finding, as values for JSON; what isn't known is left out."""
    site, reading, uses = finding.site, drawn(finding), finding.uses
    ways = [f"{name:<7} {row}".rstrip() for name, row in (rows(reading) if reading else ())]
    found: Dict[str, Any] = {
        "rule": rule_of(finding), "state": finding.state, "known": finding.known, "mode": finding.mode,
        "says": danger(finding, summary.steps_a_second) if finding.state != OTHER else outcome(finding),
        "reason": finding.reason, "why": [it for it in (why_words(finding), *ways) if it],
        "try": try_line(finding), "modes": {mode: class_word(it) for mode, it in finding.by_mode.items()},
        "offers": [{"kind": it.kind, "pattern": quoted(it.pattern), "literal": it.literal, "class": class_word(it.verdict),
                    "says": offer_words(it)} for it in finding.offers],
    }
    if finding.state == UNUSED or uses is not None and not uses.lost:
        found["uses"] = [{"method": it.method, "path": it.path, "line": it.line} for it in (uses.uses if uses else ())]
    if site is not None:
        found.update(pattern=quoted(site.pattern), function=site.function, taker=site.taker, notes=list(site.said),
                     flags=flag_letters(site.flags) if site.flags is not None else None)
    if finding.growth is not None:
        found.update(length=finding.growth.length, steps=str(finding.growth.steps))
    if finding.seen is not None:
        found["seen"] = {"python": finding.seen.python, "length": finding.seen.length,
                         "milliseconds": round(finding.seen.seconds * 1000)}
    return {key: value for key, value in found.items() if value not in (None, "", [], {})}
