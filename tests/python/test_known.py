"""The patterns of tests/data/known.toml, known from advisories: relint-ask gives the class that is expected of each."""
from __future__ import annotations

import json
import subprocess
import sys
import unittest
from pathlib import Path
from typing import Any, Dict, List

if sys.version_info >= (3, 11):
    import tomllib
else:
    import tomli as tomllib

from engine_support import missing
from relint.engine.program import located

DATA = Path(__file__).resolve().parents[1] / "data" / "known.toml"
WHY = missing("relint-ask")


def words(reply: Dict[str, Any]) -> str:
    """What a reply says, in the words of the file."""
    if reply["answer"] == "refused":
        return f"refused: {reply['cause']}"
    if reply["kind"] == "undecided":
        return f"undecided {reply['limit']} over {reply['over']}"
    return f"degree {reply['degree']}" if reply["kind"] == "degree" else str(reply["kind"])


@unittest.skipIf(WHY, WHY)
class Known(unittest.TestCase):
    """Each row of the file."""

    def test_classes(self) -> None:
        with open(DATA, "rb") as file:
            rows: List[Dict[str, Any]] = tomllib.load(file)["known"]
        mode = {"match": "match", "fullmatch": "fullmatch"}
        questions = [{"ask": "class", "pattern": it["pattern"], "bytes": it.get("bytes", False), "mode": mode.get(it["call"],
                                                                                                                  "search"),
                      "flags": "".join(letter.lower() if letter != "L" else letter for letter in it["flags"])} for it in rows]
        ran = subprocess.run([located("relint-ask")], input="".join(json.dumps(it) + "\n" for it in questions).encode(),
                             stdout=subprocess.PIPE, check=True)
        for row, line in zip(rows, ran.stdout.splitlines()):
            wanted = row.get("beyond") or (row["elsewhere"] if row.get("held") else row["relint"])
            with self.subTest(name=row["name"], source=row["source"]):
                self.assertEqual(words(json.loads(line)), wanted)


if __name__ == "__main__":
    unittest.main()
