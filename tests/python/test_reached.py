"""tools/reached: which definitions are counted, through what passes them on, and that a name that leads nowhere fails."""
from __future__ import annotations

import os
import shutil
import subprocess
import sys
import tempfile
import unittest
from pathlib import Path
from typing import Dict

from show_support import TOP, Ran

# A house of two crates: the contract of `relint_main` leads to a definition, a constant, a type and the contracts of a trait.
HOUSE = {
    "crates.txt": "# lowest first\nrl_low:\nrl_top: rl_low\n",
    "crates/rl_low/specs/Lib.antt": "pub mod Words\n",
    "crates/rl_low/specs/Words.antt": """use Rattle.std.specs.Str.{chars}
use Rattle.rl_low.specs.declared.limits.TheConstants.{MOST}

-- whether a word is short
abbrev pub IsShort : List ℕ → Type 0
IsShort word = length (chars word) ≤ MOST

-- what the trait says
abbrev pub IsHeard : List ℕ → Type 0
IsHeard word = IsShort word

abbrev pub IsLeftOver : List ℕ → Type 0
IsLeftOver word = IsShort word
""",
    "crates/rl_low/src/lib.rt": """pub mod limits;

ghost use Rattle.rl_low.specs.Words.{IsHeard};

/// One that hears.
pub trait Ear {
    fn hear(&self, word: &[u8])
        requires { IsHeard word.now };
}
""",
    "crates/rl_low/src/limits.rt": """/// The most letters of a word.
pub const MOST: usize = 7;
""",
    "crates/rl_top/src/lib.rt": """ghost use Rattle.rl_low.specs.Words.{IsShort};

use rl_low::Ear;

pub fn relint_main<E: Ear>(ear: &E, word: &[u8])
    ensures { IsShort word.now }
{
}
""",
}
# A kit whose `std` passes on a module of its `core`.
KIT = {
    "bin/rt": "#!/bin/sh\n",
    "rattle/std/specs/Lib.antt": "pub use Rattle.core.specs.Str\n",
    "rattle/core/specs/Lib.antt": "pub mod Str\n",
    "rattle/core/specs/Str.antt": "unfoldable pub chars : List ℕ → List ℕ\nchars [] = []\nchars (b ∷ bs) = b ∷ chars bs\n",
}


def write(top: Path, files: Dict[str, str]) -> None:
    """Writes files below a folder."""
    for name, text in files.items():
        path = top / name
        path.parent.mkdir(parents=True, exist_ok=True)
        path.write_text(text, encoding="utf-8")


def reached(changes: Dict[str, str], *words: str) -> Ran:
    """What the tool says of the house with these files in place of its own."""
    with tempfile.TemporaryDirectory() as made:
        top = Path(made)
        write(top, {**HOUSE, **changes})
        write(top / "kit", KIT)
        os.chmod(top / "kit" / "bin" / "rt", 0o755)
        (top / "tools").mkdir()
        for name in ("reached", "book.py"):
            shutil.copy(TOP / "tools" / name, top / "tools" / name)
        path = str(top / "kit" / "bin") + os.pathsep + os.environ["PATH"]
        command = [sys.executable, "-B", str(top / "tools" / "reached"), *words]
        env = {**os.environ, "PATH": path, "PYTHONIOENCODING": "utf-8"}
        ran = subprocess.run(command, capture_output=True, env=env, check=False)
    return Ran(ran.returncode, ran.stdout.decode("utf-8"), ran.stderr.decode("utf-8"))


class Reached(unittest.TestCase):
    """What is counted, and what fails."""

    def test_counts(self) -> None:
        """The columns count definitions with their comments, constants, and a trait with what its contracts lead to."""
        ran = reached({})
        self.assertEqual((ran.status, ran.err), (0, ""))
        # IsShort and IsHeard 4 lines each, with the blank one before them, the trait 5, the constant 2
        # IsLeftOver, 3, is for nobody
        self.assertIn("| `rl_low` | 15 | 0 | 3 |\n", ran.out)
        self.assertIn("| `core` | 3 |\n", ran.out)

    def test_files(self) -> None:
        """Files of definitions and of Rust source are listed with the lines that are reached in them."""
        ran = reached({}, "--files")
        files = ["crates/rl_low/specs/Words.antt 8", "crates/rl_low/src/lib.rt 5", "crates/rl_low/src/limits.rt 2"]
        self.assertEqual(ran.out.splitlines(), files)

    def unknown(self, file: str, old: str, new: str, told: str) -> None:
        """A name in place of a known one leads nowhere, so the tool fails and names it."""
        ran = reached({file: HOUSE[file].replace(old, new)})
        self.assertEqual((ran.status, ran.err), (1, told + " leads to no definition\n"))

    def test_unknown_names_fail(self) -> None:
        """A planted name fails: of this repository, of a module of the kit that is passed on, of a constant, of a contract."""
        words, top = "crates/rl_low/specs/Words.antt", "crates/rl_top/src/lib.rt"
        told = "Rattle.rl_low.specs.Words: Rattle."
        self.unknown(words, "{chars}", "{chars, no_such}", told + "std.specs.Str.no_such")
        self.unknown(words, "Str.{", "Char.{", told + "std.specs.Char.chars")
        self.unknown(words, "{MOST}", "{MOST, LEAST}", told + "rl_low.specs.declared.limits.TheConstants.LEAST")
        self.unknown(top, "{IsShort}", "{IsShort, IsLong}", top + ": Rattle.rl_low.specs.Words.IsLong")

    def test_internal_definitions_fail(self) -> None:
        """A public contract that leads to a definition of specs/internal/ fails."""
        top = "crates/rl_top/src/lib.rt"
        ran = reached({
            "crates/rl_low/specs/internal/Parts.antt": "abbrev pub IsPart : List ℕ → Type 0\nIsPart word = ⊤\n",
            top: HOUSE[top].replace("specs.Words.{IsShort}", "specs.internal.Parts.{IsPart}").replace("IsShort", "IsPart"),
        })
        self.assertEqual(ran.status, 1)
        self.assertIn("IsPart is reached from a public contract", ran.err)


if __name__ == "__main__":
    unittest.main()
