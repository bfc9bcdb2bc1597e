"""One report in four layouts: what each says, and that all say the same."""
from __future__ import annotations

import json
import re
from typing import Any, Dict, List, Tuple

from program import Ran, Runner

HEAD = re.compile(r"(?P<path>[^\n]*?):(?P<line>[0-9]+):(?P<column>[0-9]+): (?P<message>[a-z]+: [^\n]*)")
COUNTS = re.compile(r"([0-9]+) entries, ([0-9]+) findings, ([0-9]+) refused, ([0-9]+) undecided(?:, ([0-9]+) hidden)?\n")
UNJUDGED = ("refused", "unreadable", "too-deep-folder", "not-plain")


def message(entry: Dict[str, Any]) -> str:
    """Returns what the other layouts say of an entry of the JSON report, after its place."""
    kind = entry["kind"]
    words = {"degree": "degree %s" % entry.get("degree"), "undecided": "undecided %s over %s" % (entry.get("limit"),
             entry.get("over")), "refused": "refused %s" % entry.get("cause")}.get(kind, kind)
    if "fault" in entry:
        words += " at %d:%d" % (entry["fault"]["line"], entry["fault"]["column"])
    return ("%s: " % entry["call"] if "call" in entry else "") + words


def head(entry: Dict[str, Any]) -> str:
    """Returns the first line of an entry, as the text layout and the brief layout have it."""
    place = ":%d:%d" % (entry["line"], entry["column"]) if "line" in entry else ""
    return "%s%s: %s" % (entry["path"], place, message(entry))


def is_finding(entry: Dict[str, Any], most: int) -> bool:
    """Returns whether an entry is a finding, if `most` is the highest degree that is none (--max-degree)."""
    return entry["kind"] == "exponential" or (entry["kind"] == "degree" and int(entry["degree"]) > most)


def whole(ran: Ran) -> Dict[str, Any]:
    """Returns the JSON report of a run. Raises Wrong if standard output isn't one line with a JSON object."""
    try:
        found = json.loads(ran.text())
    except ValueError as error:
        ran.need(False, "no JSON: %s" % error)
    ran.need(isinstance(found, dict) and ran.out.count(b"\n") == 1, "the JSON report isn't one line")
    report: Dict[str, Any] = found
    return report


def counts(report: Dict[str, Any], most: int) -> Tuple[int, int, int, int]:
    """Returns what the last line has to say of a report: the numbers of entries, findings, refused and undecided ones.

    All entries of UNJUDGED count as refused. `most` is the highest degree that is no finding.
    """
    entries = report["entries"]
    return (len(entries), sum(is_finding(it, most) for it in entries), sum(it["kind"] in UNJUDGED for it in entries),
            sum(it["kind"] == "undecided" for it in entries))


def same_in_all(runner: Runner, words: List[str], most: int) -> Dict[str, Any]:
    """Runs `relint check` with these words in each layout, and returns the JSON report.

    Raises Wrong if a layout says something else. If relint refuses the words, the report has no entries and no other keys.
    """
    runs = {it: runner.run(["check", "--format", it, *words]) for it in ("text", "brief", "json", "sarif")}
    ran = runs["json"]
    for other in runs.values():
        other.need(other.status == ran.status, "the status in JSON is %d" % ran.status)
    if ran.status == 2:
        return {"entries": []}
    report = whole(ran)
    heads = [head(it) for it in report["entries"]]
    counted = counts(report, most)
    said = (report["findings"], report["refused"], report["undecided"])
    ran.need(counted[1:] == said, "the counts aren't those of the entries")
    _same_text(runs["text"], heads, counted, True)
    _same_text(runs["brief"], heads, counted, False)
    _same_sarif(runs["sarif"], report["entries"], most)
    _same_status(ran, report, counted)
    return report


def _same_status(ran: Ran, report: Dict[str, Any], counted: Tuple[int, int, int, int]) -> None:
    """Raises Wrong unless the status is 3 if an entry is unreadable, otherwise 1 if `counted` has findings, otherwise 0."""
    unread = any(it["kind"] == "unreadable" for it in report["entries"])
    wanted = 3 if unread else 1 if counted[1] else 0
    ran.need(ran.status == wanted, "the status has to be %d" % wanted)


def _same_text(ran: Ran, heads: List[str], counted: Tuple[int, int, int, int], is_long: bool) -> None:
    """Raises Wrong unless the run wrote these first lines of entries and these counts.

    `is_long` says that the layout is text, which has more lines for an entry, each indented.
    """
    text = ran.text()
    lines = text.split("\n")[:-1]
    last = COUNTS.fullmatch(lines[-1] + "\n")
    ran.need(last is not None, "the last line has no counts")
    if last is not None:
        ran.need(tuple(int(it) for it in last.groups()[:4]) == counted, "the counts have to be %r" % (counted,))
    shown = [it for it in lines[:-1] if not it.startswith("  ")] if is_long else lines[:-1]
    ran.need(shown == heads, "the entries have to be %r" % heads[:5])


def _same_sarif(ran: Ran, entries: List[Dict[str, Any]], most: int) -> None:
    """Raises Wrong unless the results of the SARIF report are these entries, without degrees up to `most`."""
    results = whole(ran)["runs"][0]["results"]
    wanted = [(it["kind"], message(it)) for it in entries if it["kind"] != "degree" or is_finding(it, most)]
    found = [(it["ruleId"], it["message"]["text"]) for it in results]
    ran.need(found == wanted, "the results have to be %r" % wanted[:5])
