"""Small programs that are run: `re.compile` gets nothing at a place that is folded but what was folded."""
from __future__ import annotations

import os
import unittest

import programs


class Programs(unittest.TestCase):
    """Folding beside Python itself."""

    def test_kept(self) -> None:
        self.assertEqual(programs.wrong(programs.kept(), programs.Count()), [])

    def test_many(self) -> None:
        count, total = programs.Count(), int(os.environ.get("RELINT_EXAMPLES", "300"))
        for at in range(0, total, 500):
            self.assertEqual(programs.wrong(programs.of_seeds(range(at, min(at + 500, total))), count), [])
        self.assertGreater(count.known * 6, count.run)


if __name__ == "__main__":
    unittest.main()
