"""Whatever a configuration or an accepted file says, no finding disappears without a line that names what hides it."""
from __future__ import annotations

import importlib
import json
import os
import random
import re
import unittest
from pathlib import Path
from typing import Any, Dict, List, NamedTuple, Set, Tuple

from engine_support import folder, missing
from screens_support import rlt

try:
    hypothesis: Any = importlib.import_module("hypothesis")
    strategies: Any = importlib.import_module("hypothesis.strategies")
except ImportError:
    hypothesis = strategies = None
WHY = missing("relint", "relint-ask")
EXAMPLES = int(os.environ.get("RELINT_EXAMPLES", "200"))
CELL = {"cell_type": "code", "metadata": {}, "outputs": [], "source": ["import re\n", "re.search('(n|n)*o', '')\n"]}
FILES: Dict[str, object] = {
    ".git/HEAD": "", "a.py": 'import re\nA = re.compile(r"(a|a)*b")\n\ndef f(s):\n    return A.search(s)\n',
    "src/b.py": 'import re\nre.search(r"x*x*x*y", "")\nre.match(r"(c|c)*d", "")  # noqa: RLT100\n'
                'HEAD = "(h|h)*"\nre.search(HEAD + "i", "")\nZ = re.compile(r"a*a*b")\n',
    "docs/c.py": 'import re\nre.search(r"(d|d)*e", "")\nre.search(r"(?:a|a){9}(?:b|b)*c", "")\n',
    "src/inner/d.ipynb": json.dumps({"cells": [CELL], "metadata": {}, "nbformat": 4, "nbformat_minor": 5}),
    "src/w.py": 'import re\nM = re.compile(r"a*a*b")\nM.match("")\n',
    "t.toml": '[takers."x.take"]\npattern = 1\n',
}
FORMATS = ("terminal", "concise", "github", "gitlab", "sarif", "html")
ROWS = [("a.py", "(a|a)*b", "search", "exponential"), ("docs/c.py", "(d|d)*e", "search", "exponential"),
        ("src/b.py", "x*x*x*y", "search", "degree 4"), ("docs/gone.py", "(d|d)*e", "search", "exponential"),
        ("src/b.py", "(h|h)*i", "search", "exponential"), ("a.py", "(a|a)*b", "search", "degree 2")]
WORDS: List[List[str]] = [[], ["src"], ["."], ["src", "a.py"], ["docs/c.py"]]
# The right values of each key of a configuration, and wrong or hostile ones.
KEYS: Dict[str, Tuple[List[Any], List[Any]]] = {
    "paths": ([["src"], ["docs"], ["a.py", "src"], ["."], ["src/../docs"], ["./"], ["docs", "nosuch.py"]],
              [[], [".."], ["/etc"], ["src/../.."], ["nosuch"], [""], ["link"], ["a.py\0"]]),
    "exclude": ([["*"], ["src"], ["a.py", "docs/*"], [], ["*.py"], ["src/**"], ["[a-c].py"], ["../*"], ["inner"], ["*/b.py"]],
                [[""], "x", [1]]),
    "max-degree": ([0, 1, 2, 3, 4, 999_999], [-1, 10**9, True, 2.5]), "warn-degree": ([0, 1, 2, 3], [999_999, "1"]),
    "max-pairs": ([1, 2, 3, 9, 999, 1000], [0, 1001]), "jobs": ([1, 2, 999_999], [0]), "seconds": ([30, 10**5], [0]),
    "compile-as": (["search", "match", "fullmatch"], ["x"]), "strict": ([True, False], [1]),
    "wide": ([True, False, {"x.y": {"pattern": 0}}], ["yes"]), "takers": ([[], ["t.toml"]], [["../t.toml"], ["/etc/passwd"]]),
    "accepted": (["acc.json", "src/acc.json", "none.json"], ["../x", "/etc/passwd", "link/passwd"]),
    "format": ([], ["html"]), "quiet": ([], [True]), "baseline-commit": ([], ["HEAD"]),
}
# The keys that can hide a finding that its file still has.
BY_CLASS = ("max-degree", "max-pairs", "compile-as")


class Case(NamedTuple):
    """A configuration with the name of its file, the accepted file, and the words of the command."""

    table: Dict[str, Any]
    name: str
    accepted: str
    words: List[str]

    def text(self) -> str:
        """The configuration as TOML; JSON's numbers, texts and lists of texts are written alike."""
        head = "[tool.relint]\n" if self.name.endswith("pyproject.toml") else ""
        rows = [f"{key} = {json.dumps(it)}\n" for key, it in self.table.items() if not isinstance(it, dict)]
        return head + "".join(rows)


def made(chance: random.Random) -> Case:
    """A case: some keys whose values are right, or now and then wrong."""
    table = {}
    for key, (right, wrong) in KEYS.items():
        if chance.randrange(4) == 0 and right:
            table[key] = chance.choice(right)
        elif chance.randrange(200) == 0:
            table[key] = chance.choice(wrong)
    names = ("path", "pattern", "mode", "class", "reason")
    rows = [dict(zip(names, (path, json.dumps(pattern), mode, cost, "ours")))
            for path, pattern, mode, cost in ROWS if chance.randrange(3) == 0]
    name = chance.choice(["relint.toml", "relint.toml", "pyproject.toml", "src/relint.toml"])
    words = chance.choice(WORDS)
    return Case(table, name, json.dumps({"version": 1, "accepted": rows}), words)


class Report(NamedTuple):
    """A report of JSON: the entries that make the run fail, all of them by their places, and the last lines."""

    fails: Set[Tuple[str, int]]
    entries: Dict[Tuple[str, int], Dict[str, Any]]
    facts: List[str]


def read(text: str) -> Report:
    """Reads a report."""
    whole = json.loads(text)
    rows = {(os.path.normpath(it["path"]), it.get("line", 1)): it for it in (*whole["entries"], *whole["beyond"])}
    return Report({at for at, it in rows.items() if it["rlt"]["state"] == "new"}, rows, whole["rlt"]["facts"])


def hides(at: Tuple[str, int], report: Report) -> str:
    """What has to be in the last lines, as a pattern, if the finding at a place is hidden."""
    entry = report.entries.get(at)
    if entry is None:
        return r"^configuration: .*\((.*, )?(paths|exclude)\b|^not looked at: |^time ran out"
    state = entry["rlt"]["state"]
    count = sum(it["rlt"]["state"] == state for it in report.entries.values())
    hidden = {"accepted": "accepted by", "unused": "not as used", "ignored": "ignored by"}
    if state in hidden:
        return rf"^hidden: (.*, )?{count:,} {hidden[state]}"
    keys = ("max-pairs", "compile-as") if entry["kind"] == "undecided" else BY_CLASS
    return rf"^configuration: .*\((.*, )?({'|'.join(keys)}) = \w+"


def facts_in(name: str, text: str) -> str:
    """The text of a layout, in which the last lines can be looked for."""
    if name in ("sarif", "gitlab"):
        return json.dumps(json.loads(text), ensure_ascii=False)
    return text.replace("&#x27;", "'").replace("&amp;", "&") if name == "html" else text


@unittest.skipIf(WHY, WHY)
class Narrowing(unittest.TestCase):
    """Generated configurations over a small tree: by hypothesis where it is there, otherwise from fixed numbers.

    RELINT_EXAMPLES says how many.
    """

    every: Dict[Tuple[str, ...], Set[Tuple[str, int]]]
    met: Dict[str, int]

    def judged(self, case: Case) -> None:
        """Compares a run with a configuration with one without any."""
        for path in (it for it in ("relint.toml", "pyproject.toml", "src/relint.toml") if os.path.lexists(it)):
            os.remove(path)
        Path(case.name).write_text(case.text())
        for path in ("acc.json", "src/acc.json", "relint-accepted.json"):
            Path(path).write_text(case.accepted)
        ran = rlt("check", "--format=json", "--most=0", *(f"--write={it}=../out/{it}" for it in FORMATS), "--", *case.words)
        if ran.status == 2 or not ran.out:
            self.assertRegex(ran.err, r"^rlt: [^\n]+\n$", case)
            self.met["refused"] = self.met.get("refused", 0) + 1
            return
        report = read(ran.out)
        for at in self.every[tuple(case.words)] - report.fails:
            wanted = hides(at, report)
            self.assertTrue(any(re.search(wanted, it) for it in report.facts), (case, at, wanted, report.facts))
            self.met[wanted] = self.met.get(wanted, 0) + 1
        for name in FORMATS:
            text = facts_in(name, Path("../out", name).read_text())
            for it in report.facts:
                self.assertIn(it.replace('"', '\\"') if name in ("sarif", "gitlab") else it, text, (case, name))

    def test_nothing_disappears_in_silence(self) -> None:
        self.met = {}
        with folder({f"top/{name}": it for name, it in FILES.items()}) as here:
            (here / "out").mkdir()
            os.chdir("top")
            os.symlink("/etc", "link")
            self.every = {tuple(it): read(rlt("check", "--no-config", "--format=json", "--most=0", *it).out).fails
                          for it in WORDS}
            self.assertEqual(sorted(map(len, self.every.values())), [2, 4, 5, 7, 7])
            if hypothesis is None:
                for number in range(EXAMPLES):
                    self.judged(made(random.Random(number)))
            else:
                settings = hypothesis.settings(max_examples=EXAMPLES, deadline=None, derandomize=True, database=None,
                                               suppress_health_check=list(hypothesis.HealthCheck))
                run = hypothesis.given(strategies.randoms(use_true_random=False))(lambda it: self.judged(made(it)))
                settings(run)()
        if os.environ.get("SHOW"):
            print(self.met)
        self.assertGreater(len(self.met), 3, self.met)


if __name__ == "__main__":
    unittest.main()
