"""Reports and sources of others that take longer than the time that was given: each run ends in time, and says what is left.

RELINT_MEGABYTES is the size of the reports, and RELINT_FINDINGS the number of findings in the source. The processor's time is
compared, which doesn't hang on what else the machine does.
"""
from __future__ import annotations

import json
import os
import resource
import subprocess
import time
import unittest
from pathlib import Path
from typing import Any, Dict, Iterator, List, Tuple

from engine_support import TOP, folder, missing

WHY = missing("relint", "relint-ask")
MEGABYTES, FINDINGS = int(os.environ.get("RELINT_MEGABYTES", "18")), int(os.environ.get("RELINT_FINDINGS", "2000"))
FORMATS = ("terminal", "concise", "github", "gitlab", "sarif", "json", "html")
LIMITS = (1, 3)
# What is allowed over the limit and two starts: the last step that was begun, on a slow machine.
SLACK = 1.0


def entry(line: int, **changed: Any) -> str:
    """An entry of a report."""
    family = {"heads": ['r"0"', 'r"!"'], "pumps": ['r"a"']}
    whole: Dict[str, Any] = {"call": "search", "column": 11, "family": family, "kind": "exponential", "path": "a.py"}
    return json.dumps({**whole, "line": line, **changed})


def reports() -> Iterator[Tuple[str, str]]:
    """A name for each report, and an entry of it in which 77 stands for the number of the line."""
    yield "many entries", entry(77)
    yield "long families", entry(77, family={"heads": ['r"0"', 'r"!"'], "pumps": ['r"%s"' % ("a" * 45_000)]})
    yield "families of many parts", entry(77, family={"heads": ['"\\n"'] * 9000, "pumps": ['"\\n"'] * 8999})
    yield "long suggestions", entry(77, suggest='"%s"' % ("\\n" * 400_000))
    yield "one key", '"%s"' % ("a" * 60_000_000)


def put(name: str, text: str) -> None:
    """Writes a report whose entries are copies of a text, to a file of MEGABYTES at least."""
    with open(name, "w", encoding="ascii") as file:
        size = file.write('{"version":2,"findings":1,"entries":[')
        for number in range(1, 500_000):
            size += file.write(("," if number > 1 else "") + text.replace("77", str(number), 1))
            if size > MEGABYTES * 1_000_000:
                break
        file.write("]}")


def ran(*words: str) -> Tuple[int, float, str]:
    """Runs the command; returns its status, the processor time of all its processes, and what it wrote."""
    before, begun = resource.getrusage(resource.RUSAGE_CHILDREN), time.monotonic()
    done = subprocess.run([str(TOP / "tools" / "rlt"), *words, "--jobs=1"], stdout=subprocess.PIPE, stderr=subprocess.STDOUT)
    after = resource.getrusage(resource.RUSAGE_CHILDREN)
    used = after.ru_utime + after.ru_stime - before.ru_utime - before.ru_stime
    if os.environ.get("SHOW"):
        took = time.monotonic() - begun
        print(f"{used:6.2f} s of the processor, {took:6.2f} s, status {done.returncode}: {' '.join(words)}")
    return done.returncode, used, done.stdout.decode("utf-8")


@unittest.skipIf(WHY, WHY)
class InTime(unittest.TestCase):
    """Runs with a limit of some seconds."""

    def ends(self, start: float, *words: str) -> None:
        """Runs the words with each limit; `start` is what a run over nothing takes."""
        for seconds in LIMITS:
            written = [f"{it}=out.{it}" for it in FORMATS[1:]] if words[0] == "check" else []
            status, used, said = ran(*words, *(f"--write={it}" for it in written), f"--seconds={seconds}")
            self.assertIn(status, (0, 1, 3), said[-300:])
            self.assertLess(used, seconds + 2 * start + SLACK, words)
            texts = [said, *(Path(it.partition("=")[2]).read_text() for it in written)]
            # (a layout that was done in time needn't say that another one wasn't)
            self.assertEqual(status == 3, any("time ran out" in it for it in texts), (words, said[-300:]))

    def start(self) -> float:
        """The processor time of a run over a small source."""
        Path("empty.py").write_text("import re\nre.search('(a|a)*b', '')\n")
        found: List[float] = [ran("check", "empty.py")[1] for _ in range(3)]
        return max(found)

    def test_reports(self) -> None:
        with folder({"a.py": "import re\nre.search('(a|a)*b', '')\n"}):
            start = self.start()
            for name, text in reports():
                with self.subTest(name):
                    put("r.json", text)
                    if name == "one key":
                        self.assertIn(ran("check", "--from=r.json", "--seconds=1")[0], (2, 3))
                        continue
                    self.ends(start, "check", "--from=r.json")
                    self.ends(start, "fix", "--diff", "--from=r.json")

    def test_many_sources(self) -> None:
        text = "import re\nP = '(a|a)*'\nre.search(P + 'b', s)\nre.search('(a|a)*b', s)\n"
        with folder({f"src/p{it % 100}/a{it}.py": text for it in range(FINDINGS)}):
            self.ends(self.start(), "check", "src")

    def test_a_source_with_many_findings(self) -> None:
        text = "import re\n" + "".join(f're.search(r"(a|a)*{it}", s)\n' for it in range(FINDINGS))
        with folder({"many.py": text}):
            start = self.start()
            self.ends(start, "check", "many.py")
            self.ends(start, "fix", "--diff", "many.py")
            self.ends(start, "accept", "--all", "--reason=x", "many.py")


if __name__ == "__main__":
    unittest.main()
