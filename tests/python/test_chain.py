"""tools/chain: whose seconds a log counts, the longest chain, and which processes are provers of a checkout."""
from __future__ import annotations

import importlib.machinery
import importlib.util
import json
import os
import tempfile
import unittest
from pathlib import Path
from types import ModuleType
from typing import Dict, List, Union

from show_support import TOP, Ran, folder, tool

Line = Dict[str, Union[str, float]]
# Seconds of provers: their words, their folders, and what their seconds are.
LOG = (
    ("rattle build --crate-name rl_lists src/lib.rt -o", "/top/crates/rl_lists", 4.0),
    ("rattle build --crate-name rl_ranges src/lib.rt -o", "/top/crates/rl_ranges", 70.5),
    ("rattle build --crate-name rl_syntax src/lib.rt -o", "/top/crates/rl_syntax", 50.0),
    ("rattle build --crate-name rl_graph src/lib.rt -o", "/top/crates/rl_graph", 100.0),
    ("rattle build --crate-name rl_graph src/lib.rt --test -o", "/top/crates/rl_graph", 7.0),
    ("rattle check --crate-name rl_graph src/lib.rt", "/room/rt-edit-12-abc", 20.0),
    ("rattle check --crate-name rl_graph src/lib.rt", "/room/rt-edit-12-def", 3.0),
    ("rattle check --crate-name rl_kernel src/lib.rt", "/top/crates/rl_kernel", 9.0),
    ("rattle build --crate-name another_crate src/lib.rt -o", "/other", 1000.0),
)


def reported(lines: List[Line]) -> Ran:
    """The report on a log."""
    with folder({"log": "".join(json.dumps(line) + "\n" for line in lines)}):
        return tool("chain", "log")


def chain() -> ModuleType:
    """The tool as a module."""
    loader = importlib.machinery.SourceFileLoader("chain", str(TOP / "tools" / "chain"))
    spec = importlib.util.spec_from_loader("chain", loader)
    assert spec is not None
    module = importlib.util.module_from_spec(spec)
    loader.exec_module(module)
    return module


class Report(unittest.TestCase):
    """What is printed of a log."""

    def test_seconds_and_chain(self) -> None:
        """Proofs, tests and wrong bodies are told apart, and a crate that the checkout doesn't have counts for nothing."""
        lines: List[Line] = [{"first": 1, "last": 2, "cpu": cpu, "args": args, "cwd": cwd} for args, cwd, cpu in LOG]
        ran = reported(lines)
        self.assertEqual((ran.status, ran.err), (0, ""))
        self.assertIn("| `rl_graph` | 1.7 | 0.1 | 0.4 | 2.2 |\n", ran.out)
        self.assertIn("| `rl_kernel` | 0.1 |  |  | 0.1 |\n", ran.out)
        self.assertIn("| all | 3.9 | 0.1 | 0.4 | 4.4 |\n", ran.out)
        self.assertIn("takes 2.1 minutes:\n", ran.out)
        rows = ["| `rl_lists` | 0.1 | 0.1 |", "| `rl_ranges` | 1.2 | 1.2 |", "| `rl_syntax` | 0.8 | 2.1 |"]
        self.assertIn("\n".join(rows), ran.out)

    def test_a_log_that_is_none(self) -> None:
        """A line without the fields, and a file that isn't there, end with status 2."""
        self.assertEqual(reported([{"first": 1}]).status, 2)
        with folder({}):
            self.assertEqual(tool("chain", "none").status, 2)


class Processes(unittest.TestCase):
    """Which processes are provers of a checkout."""

    def setUp(self) -> None:
        """Makes an empty folder in place of /proc."""
        made = tempfile.TemporaryDirectory(prefix="relint proc ")
        self.addCleanup(made.cleanup)
        self.proc = Path(made.name)

    def process(self, number: int, words: List[str], cwd: str) -> None:
        """Adds a process that has taken 3 seconds."""
        here = self.proc / str(number)
        here.mkdir()
        (here / "cmdline").write_bytes("".join(word + "\0" for word in words).encode())
        ticks = os.sysconf("SC_CLK_TCK")
        (here / "stat").write_text("%d (a) b) S %s%d %d 0 0 20 0 1 0 99" % (number, "0 " * 10, ticks * 2, ticks))
        os.symlink(cwd, str(here / "cwd"))

    def test_provers(self) -> None:
        """A prover counts in a folder of the checkout, and on a copy for an edit where its libraries are the checkout's."""
        prover = ["/kit/bin/rattle", "check", "--crate-name", "rl_graph"]
        self.process(1, prover + ["-L", "dependency=/kit/rlibs", "--extern", "rl_lists=/top/x.rlib"], "/top/crates/rl_graph")
        self.process(2, prover + ["-L", "dependency=/top/crates/rl_lists/out/rlib"], "/room/rt-edit-1-a")
        self.process(3, prover + ["-L", "dependency=/other/crates/rl_lists/out/rlib"], "/room/rt-edit-1-b")
        self.process(4, prover, "/topmost/crates/rl_graph")
        self.process(5, ["cat"], "/top")
        self.process(6, ["/kit/bin/rattle", "check", "--crate-name", "rl_lists"], "/room/rt-edit-1-c")
        found = chain().provers(self.proc, Path("/top"), {"rl_lists", "rl_graph"})
        self.assertEqual(sorted(key.split()[0] for key in found), ["1", "2", "6"])
        self.assertEqual(found["1 99"], (3.0, "/kit/bin/rattle check --crate-name rl_graph", "/top/crates/rl_graph"))

    def test_a_gate_runs(self) -> None:
        """A gate is `rt ci` at the top of the checkout."""
        tool_of = chain()
        self.process(1, ["python3", "/kit/bin/rt", "ci"], "/other")
        self.process(2, ["python3", "/kit/bin/rt", "check"], "/top")
        self.assertFalse(tool_of.gate_runs(self.proc, Path("/top")))
        self.process(3, ["python3", "/kit/bin/rt", "ci"], "/top")
        self.assertTrue(tool_of.gate_runs(self.proc, Path("/top")))


if __name__ == "__main__":
    unittest.main()
