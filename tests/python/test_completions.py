"""The completions for shells: they are those of the options, and each shell takes them."""
from __future__ import annotations

import os
import shutil
import subprocess
import sys
import unittest
from typing import List, Sequence, Tuple

from engine_support import TOP, folder
from relint.base.model import MODES
from relint.options import WORDS, options_of

FOLDER = TOP / "packaging" / "completions"
EVERY = [f"{shell}/{name}" for command in ("relint", "rlt") for shell, name in (
    ("bash", command), ("zsh", f"_{command}"), ("fish", f"{command}.fish"))]


class Completions(unittest.TestCase):
    """The files of packaging/completions."""

    def test_they_are_current(self) -> None:
        ran = subprocess.run([sys.executable, str(TOP / "tools" / "completions"), "--check"], stderr=subprocess.PIPE)
        self.assertEqual((ran.returncode, ran.stderr), (0, b""))
        self.assertEqual(sorted(f"{it.parent.name}/{it.name}" for it in FOLDER.glob("*/*")), sorted(EVERY))

    def test_each_shell_has_all_options(self) -> None:
        for file in EVERY[3:]:
            text = (FOLDER / file).read_text()
            for name in (name for word in WORDS for name in options_of(word)):
                self.assertIn(f"-l {name[2:]}" if "fish" in file and name.startswith("--") else name.lstrip("-"), text, file)

    def test_each_shell_reads_them(self) -> None:
        for file in EVERY:
            shell = file.split("/")[0]
            if shutil.which(shell):
                self.assertEqual(subprocess.run([shell, "-n", str(FOLDER / file)]).returncode, 0, file)

    def completed(self, *words: str) -> List[str]:
        given = " ".join(f"'{it}'" for it in words)
        lines = [f'source "{FOLDER}/bash/{words[0]}"', f"COMP_WORDS=({given})", f"COMP_CWORD={len(words) - 1}", f"_{words[0]}",
                 r'printf "%s\n" "${COMPREPLY[@]}"']
        ran = subprocess.run(["bash", "-c", "\n".join(lines)], stdout=subprocess.PIPE, check=True)
        return [it for it in ran.stdout.decode().splitlines() if it]

    @unittest.skipUnless(shutil.which("bash"), "bash isn't installed")
    def test_bash(self) -> None:
        cases: Sequence[Tuple[str, List[str]]] = (
            ("relint c", ["check", "class", "cost", "compare"]),
            ("relint check --m", ["--mode", "--max-degree", "--max-pairs"]),
            ("relint check --format ", ["text", "brief", "json", "sarif"]), ("relint class --max-pairs ", []),
            ("relint check w", ["with blank.py"]), ("relint check --baseline o", ["other.py"]), ("relint class o", []),
            ("relint verify a o", ["other.py"]), ("rlt f", ["fix"]), ("rlt fix --d", ["--diff"]), ("rlt --di", []),
            ("rlt --no-c", ["--no-config"]), ("rlt o", ["other.py"]), ("rlt fix o", ["other.py"]), ("rlt explain o", []),
            ("rlt check --mode ", list(MODES)), ("rlt src --max-d", ["--max-degree"]), ("rlt --reason ", []),
        )
        with folder({"with blank.py": "", "other.py": ""}):
            for line, found in cases:
                self.assertEqual(self.completed(*line.split(" ")), found, line)

    @unittest.skipUnless(shutil.which("fish"), "fish isn't installed")
    def test_fish(self) -> None:
        with folder({"other.py": ""}) as here:
            for words, found in (("relint c", {"check", "class", "cost", "compare"}), ("rlt fix --dif", {"--diff"}),
                                 ("rlt check --mode ", set(MODES)), ("rlt check ot", {"other.py"}),
                                 ("relint class ot", set())):
                code = f"source '{FOLDER}/fish/{words.split()[0]}.fish'; complete -C '{words}'"
                ran = subprocess.run(["fish", "--no-config", "-c", code], stdout=subprocess.PIPE, check=True,
                                     env={**os.environ, "HOME": str(here)})
                self.assertEqual({it.split("\t")[0] for it in ran.stdout.decode().splitlines()}, found, words)


if __name__ == "__main__":
    unittest.main()
