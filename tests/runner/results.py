"""What a test answers, and the lines that are printed of it."""
from __future__ import annotations

from dataclasses import dataclass, field
from typing import Callable, List


class Failed(Exception):
    """A test failed; the message says how, in one line or some."""


class Skipped(Exception):
    """A test can't run here; the message says what is missing."""


@dataclass(frozen=True)
class Note:
    """A test that didn't pass, and why."""

    test: str
    reason: str


@dataclass
class Result:
    """What came of the tests of one part."""

    passed: int = 0
    failures: List[Note] = field(default_factory=list)
    skips: List[Note] = field(default_factory=list)

    def fail(self, test: str, reason: str) -> None:
        self.failures.append(Note(test, reason))

    def skip(self, test: str, reason: str) -> None:
        """Adds a test that wasn't run."""
        self.skips.append(Note(test, reason))

    def take(self, test: str, run: Callable[[], None]) -> None:
        """Runs a test, which raises `Failed` or `Skipped` where it doesn't pass."""
        try:
            run()
        except Failed as failure:
            self.fail(test, str(failure))
        except Skipped as skipped:
            self.skip(test, str(skipped))
        else:
            self.passed += 1

    def add(self, other: "Result") -> None:
        """Adds the tests of another result."""
        self.passed += other.passed
        self.failures.extend(other.failures)
        self.skips.extend(other.skips)

    def counts(self) -> str:
        """The counts as they are printed."""
        text = "%d passed, %d failed" % (self.passed, len(self.failures))
        return text + (", %d skipped" % len(self.skips) if self.skips else "")


def shortened(text: str, most: int = 1200) -> str:
    """A text without its middle where it is longer than `most` characters."""
    return text if len(text) <= most else text[:most // 2] + " .. " + text[-most // 2:]
