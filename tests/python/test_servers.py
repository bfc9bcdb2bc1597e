"""The formats for programs: concise, GitHub, GitLab, SARIF and JSON, and what each says besides its findings."""
from __future__ import annotations

import importlib
import json
import os
import re
import unittest
from dataclasses import replace
from typing import Any, Callable, Dict, List, Sequence
from unittest import mock

import report_schemas
from relint.base.model import (
    ACCEPTED, IGNORED, KNOWN, OTHER, PROVED, SEEN, WARNED, Finding, Narrowed, NotLooked, Place, Seen, Summary, Verdict,
)
from relint.base.words import ADDRESS
from relint.engine.engine import read_report
from relint.options import Options
from relint.show import servers, terminal
from screens_support import SUMMARY, beyond, cubic, exponential, refused, undecided

try:
    jsonschema: Any = importlib.import_module("jsonschema")
except ImportError:
    jsonschema = None
NO_SCHEMAS = "the package jsonschema (Debian: python3-jsonschema) isn't installed"
EVERY: List[Callable[..., Any]] = [terminal.lines, servers.concise, servers.github, servers.gitlab, servers.sarif,
                                   servers.json_report]
NASTY = "\x1b[2J\u202e##[error]x\n::error::y\r\x07%"


def made(layout: Callable[..., Any], findings: Sequence[Finding], summary: Summary = SUMMARY, **more: Any) -> str:
    return "\n".join(layout(findings, summary, Options(**more)))


def mixed() -> List[Finding]:
    seen = exponential(known=SEEN, seen=Seen("CPython 3.11", 40, 1.0, 13))
    return [cubic(), exponential(), refused(), undecided(), exponential(state=ACCEPTED, reason="it is short"),
            cubic(state=IGNORED), cubic(state=KNOWN), seen]


class Every(unittest.TestCase):
    """What each format says."""

    def test_what_was_left_out(self) -> None:
        summary = replace(SUMMARY, late=True, narrowed=(Narrowed("pyproject.toml", "max-degree = 3"),), notes=("a note",),
                          not_looked=(NotLooked("b.py", "it isn't UTF-8"),), added_accepts=(("acc.json", 3, "because"),))
        for layout in EVERY:
            for quiet in (False, True):
                text = made(layout, mixed(), summary, quiet=quiet)
                for said in ("configuration: pyproject.toml (max-degree = 3)", "b.py: it isn", "a note", "time ran out",
                             "because",
                             "1 accepted by relint-accepted.json", "1 ignored by noqa", "not judged: 2 patterns"):
                    self.assertIn(said, text, layout)

    def test_the_configuration_is_said_even_if_the_run_forgot_it(self) -> None:
        options = Options(narrowed=(Narrowed("relint.toml", "exclude"),), notes=("the change touches it",))
        for layout in EVERY:
            text = "\n".join(layout([], SUMMARY, options))
            self.assertIn("configuration: relint.toml (exclude)", text)
            self.assertIn("the change touches it", text)

    def test_what_only_relint_ask_judges_is_said_once(self) -> None:
        said = "proved by relint-ask, beyond relint's profile"
        harmless = beyond(Verdict("degree", 1), state=OTHER, growth=None)
        # (Code Quality has a description and a body, and SARIF the page about the rule, twice)
        times = {servers.gitlab: 2, servers.sarif: 3}
        for layout in EVERY:
            text = made(layout, [beyond()])
            self.assertEqual(text.count(said), times.get(layout, 1), layout)
            self.assertIn("RLT400", text)
            for words in ("not judged", "RLT201"):
                self.assertNotIn(words, made(layout, [harmless], strict=True), layout)
        for layout in (terminal.lines, servers.concise):
            self.assertIn("RLT401 linear, " + said, made(layout, [harmless], all=True))

    def test_nothing_hostile_comes_through(self) -> None:
        entry = replace(exponential().entry, path=NASTY)
        findings = [exponential(entry=entry, reason=NASTY, lines=((2, NASTY),)), replace(refused(), entry=replace(
            refused().entry, path=NASTY, cause=NASTY))]
        summary = replace(SUMMARY, notes=(NASTY,), added_accepts=((NASTY, 1, NASTY),), not_looked=(NotLooked(NASTY, NASTY),),
                          narrowed=(Narrowed(NASTY, NASTY),))
        for layout in EVERY:
            for all_of in (False, True):
                text = made(layout, findings, summary, all=all_of, color="never")
                self.assertFalse(set(text) & set("\x1b\u202e\x07\r"), layout)
                self.assertNotIn("##[", text)
                lines = [it for it in text.split("\n") if it.lstrip().startswith("::")]
                self.assertTrue(layout is servers.github or not lines, (layout, lines))


class Lines(unittest.TestCase):
    """One line a finding."""

    def test_concise(self) -> None:
        lines = made(servers.concise, [cubic(), exponential()]).splitlines()
        self.assertEqual(lines[0],
                         "app.py:2:19: RLT100 exponential: a text of 30 characters keeps this search busy for about a minute")
        self.assertEqual(len(lines), 3)

    def test_github(self) -> None:
        lines = made(servers.github, [cubic(), exponential()]).splitlines()
        found = re.fullmatch("::error file=app.py,line=2,col=19,title=relint RLT100::(.*)", lines[0])
        assert found is not None
        message = found[1].split("%0A")
        self.assertEqual(message[0], "exponential: a text of 30 characters keeps this search busy for about a minute")
        self.assertRegex(message[1], '^why: "00" can be read in two ways')
        self.assertRegex(message[3], r"^fix: put r\"\^\(\?:\(\?:.* in its place    linear, and finds the same \(proved\)$")
        self.assertRegex(message[-2], r"^try: python3 -I -c '.*'  # Ctrl-C stops it$")
        self.assertEqual(message[-1], "more: rlt explain RLT100")
        with mock.patch.dict(os.environ, {ADDRESS: "https://github.com/a/b/blob/v2/docs"}):
            line = made(servers.github, [exponential()]).splitlines()[0]
        self.assertTrue(line.endswith("%0Amore: https://github.com/a/b/blob/v2/docs/RULES.md#rlt100-exponential-pattern"))

    def test_github_calls_an_error_what_fails(self) -> None:
        def levels(*findings: Finding, summary: Summary = SUMMARY, **more: Any) -> List[str]:
            """The levels of the annotations."""
            lines = made(servers.github, findings, summary, **more).splitlines()
            return [it.split()[0] for it in lines if it.startswith("::")]

        self.assertEqual(levels(exponential(), cubic()), ["::error", "::error"])
        self.assertEqual(levels(cubic(state=WARNED), exponential(state=WARNED)), ["::warning", "::warning"])
        self.assertEqual(levels(refused(), undecided(), exponential(state=ACCEPTED), all=True), ["::notice"] * 3)
        self.assertEqual(levels(refused(), undecided(), strict=True), ["::error"] * 2)
        self.assertEqual(levels(refused(), exponential(state=ACCEPTED), strict=True, all=True), ["::error", "::notice"])
        files = NotLooked("b.py", "it isn't UTF-8", fails=True), NotLooked("c.py", "it is a link")
        lost = replace(SUMMARY, not_looked=files)
        self.assertEqual(levels(summary=lost), ["::error"])
        self.assertEqual(levels(summary=lost, strict=True), ["::error", "::error"])
        self.assertIn("::error file=b.py,title=relint RLT203::not looked at: it isn't UTF-8", made(servers.github, [], lost))

    def test_github_names_accepts_and_the_configuration_in_their_places(self) -> None:
        summary = replace(SUMMARY, added_accepts=(("acc.json", 3, "why"),), narrowed=(Narrowed("p.toml", "exclude"),))
        text = made(servers.github, [refused()], summary, strict=True)
        self.assertIn("::notice file=acc.json,line=3::this change accepts a finding: why", text)
        self.assertIn("::notice file=p.toml::configuration: exclude narrows this check", text)
        self.assertIn("::error file=app.py,line=9,col=5,title=relint RLT201::not judged (lookaround", text)

    def test_a_command_can_not_be_forged(self) -> None:
        entry = replace(exponential().entry, path="a,line=1::x%0A::error::\n::y")
        line = made(servers.github, [exponential(entry=entry)]).splitlines()[0]
        self.assertTrue(line.startswith("::error file=a%2Cline=1%3A%3Ax%250A%3A%3Aerror%3A%3A%0A%3A%3Ay,line=2,"), line)


class Json(unittest.TestCase):
    """GitLab, SARIF and JSON."""

    def document(self, layout: Callable[..., Any], *args: Any, **more: Any) -> Any:
        text = made(layout, *args, **more)
        self.assertTrue(text.isascii() and "\n" not in text)
        return json.loads(text)

    def test_gitlab(self) -> None:
        issues = self.document(servers.gitlab, [exponential(), cubic()])
        self.assertEqual([(it["check_name"], it["severity"]) for it in issues], [("RLT100", "critical"), ("RLT103", "major")])
        self.assertEqual(issues[0]["location"], {"path": "app.py", "lines": {"begin": 2}})
        self.assertRegex(issues[0]["description"], "^RLT100 exponential: a text of 30 .*; fix: r")
        self.assertIn("why: ", issues[0]["content"]["body"])

    def test_fingerprints_stay_if_lines_and_files_move(self) -> None:
        def prints(*findings: Finding) -> List[str]:
            return [it["fingerprint"] for it in self.document(servers.gitlab, findings)]
        moved = exponential(entry=replace(exponential().entry, path="b/c.py", place=Place(70, 3)))
        self.assertEqual(prints(exponential()), prints(moved))
        self.assertEqual(len(set(prints(exponential(), moved, cubic()))), 3)
        results = self.document(servers.sarif, [exponential()])["runs"][0]["results"]
        self.assertEqual(results[0]["partialFingerprints"], {"relintPattern/v2": prints(exponential())[0]})

    def test_sarif(self) -> None:
        run = self.document(servers.sarif, mixed(), baseline_commit="main")["runs"][0]
        rules = [it["id"] for it in run["tool"]["driver"]["rules"]]
        self.assertEqual(rules, ["RLT100", "RLT103", "RLT200", "RLT201", "RLT350"])
        self.assertTrue(all(rules[it["ruleIndex"]] == it["ruleId"] for it in run["results"]))
        self.assertIn("What to do", run["tool"]["driver"]["rules"][0]["help"]["markdown"])
        by_rule: Dict[str, Any] = {it["ruleId"]: it for it in reversed(run["results"])}
        self.assertEqual([by_rule[it]["level"] for it in rules], ["error", "warning", "note", "note", "error"])
        change = by_rule["RLT103"]["fixes"][0]["artifactChanges"][0]["replacements"][0]
        self.assertEqual(change["deletedRegion"], {"startLine": 5, "startColumn": 22, "endLine": 5, "endColumn": 40})
        self.assertEqual(change["insertedContent"], {"text": r'r"\s+(\S.*|[^\S\n]), subnet"'})
        kinds = [it["suppressions"][0] for it in run["results"] if "suppressions" in it]
        self.assertEqual([it["kind"] for it in kinds], ["external", "inSource"])
        self.assertEqual(kinds[0]["justification"], "it is short")
        self.assertEqual(sum(it["baselineState"] == "unchanged" for it in run["results"]), 1)

    def test_paths_as_addresses(self) -> None:
        for path, uri in (("a b/\u00e9#.py", "a%20b/%C3%A9%23.py"), ("/x/y", "file:///x/y"), ("a\udcff", "a%FF")):
            finding = exponential(entry=replace(exponential().entry, path=path))
            found = self.document(servers.sarif, [finding])["runs"][0]["results"][0]["locations"][0]["physicalLocation"]
            self.assertEqual(found["artifactLocation"]["uri"], uri)

    @unittest.skipIf(jsonschema is None, NO_SCHEMAS)
    def test_schemas(self) -> None:
        summary = replace(SUMMARY, narrowed=(Narrowed("/abs/p.toml", "exclude"),), added_accepts=(("./acc.json", 3, "x"),))
        cases: Any = ({}, {"all": True, "baseline_commit": "main", "config": "relint.toml"})
        for options in cases:
            jsonschema.validate(self.document(servers.sarif, mixed(), summary, **options), report_schemas.SARIF)
            jsonschema.validate(self.document(servers.gitlab, mixed(), summary, **options), report_schemas.GITLAB)

    def test_json_is_read_back(self) -> None:
        findings = mixed()
        text = made(servers.json_report, findings)
        found = read_report([text.encode()])
        self.assertEqual(list(found.entries), [it.entry for it in findings if it.known == PROVED])
        whole = json.loads(text)
        self.assertEqual((whole["version"], whole["refused"], whole["undecided"], len(whole["beyond"])), (2, 1, 1, 1))
        added = whole["entries"][1]["rlt"]
        self.assertEqual((added["rule"], added["state"], added["mode"], added["length"]), ("RLT100", "new", "search", 30))
        self.assertEqual(added["offers"][0]["literal"], exponential().offers[0].literal)
        self.assertEqual(added["why"][1:3], ["text    0 0 0", "way 1   A A|A"])
        self.assertNotRegex(text, r"[0-9]\.[0-9]+[,}]")

    def test_json_of_what_only_relint_ask_judges(self) -> None:
        whole = self.document(servers.json_report, [beyond()])
        row = whole["entries"][0]
        self.assertEqual((whole["findings"], whole["beyond"], row["kind"], row["cause"]), (1, [], "refused", "lookaround"))
        self.assertEqual((row["rlt"]["known"], row["rlt"]["rule"], row["rlt"]["modes"]), ("beyond", "RLT400", {
            "search": "exponential"}))


if __name__ == "__main__":
    unittest.main()
