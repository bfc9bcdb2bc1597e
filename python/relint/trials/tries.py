"""Has processes try patterns on texts with the running Python's `re`.

Each runs the script `trial`. Neither the current folder nor the environment can change what it does.
"""
from __future__ import annotations

import json
import os
import sys
from contextlib import suppress
from typing import Any, Dict, List, Mapping, Optional, Sequence, Tuple

from ..engine.ask import Service, Services
from .trial import GROUPS_TOO, OTHER, SPANS_TOO, TEXTS_ALONE

SCRIPT = os.path.join(os.path.dirname(os.path.realpath(__file__)), "trial.py")
ANSWER_SECONDS = 20.0


class Trials(Services):
    """Compares patterns with one pattern on texts, and answers other questions. Each process has one question at a time."""

    def __init__(self, jobs: int = 1, seconds: float = ANSWER_SECONDS, deadline: float = float("inf")) -> None:
        """Takes how many processes there may be, the seconds for a question, and the time at which to end."""
        super().__init__(jobs, seconds, deadline, 1)
        self._asked: Dict[str, Any] = {}

    def started(self) -> Service:
        environment = {name: value for name, value in os.environ.items() if not name.startswith("PYTHON")}
        return Service([sys.executable, "-I", "-B", "-S", SCRIPT], environment)

    def ask_all(self, questions: Sequence[Mapping[str, Any]]) -> List[Optional[Dict[str, Any]]]:
        """Returns the answer to each question, in order; None if there is none in time."""
        found: List[Optional[Dict[str, Any]]] = [None] * len(questions)
        for number, line in self.answers([json.dumps(it).encode("ascii") + b"\n" for it in questions]):
            with suppress(ValueError, RecursionError):
                answer = json.loads(line or b"null")
                found[number] = answer if isinstance(answer, dict) else None
        return found

    def begin(self, pattern: str, is_bytes: bool, flags: int, calls: Sequence[str], texts: Sequence[str]) -> None:
        """Takes the pattern to compare with, its flags, the names of the calls (as in `trial`), and the texts.

        Bytes have a character for each byte here. For a bytes pattern texts with characters above U+00FF are left out.
        """
        fitting = [it for it in texts if not is_bytes or all(ord(letter) < 256 for letter in it)]
        self._asked = {"pattern": pattern, "bytes": is_bytes, "flags": flags, "calls": list(calls), "texts": fitting}

    def kinds(self, patterns: Sequence[str], seconds: float = ANSWER_SECONDS) -> Tuple[List[str], int]:
        """Returns what each pattern may still be, by a word of `trial`, and on how many texts each was compared at least.

        Without an answer within the seconds nothing is known: each may be the same in all, and the second number is 0.
        """
        self.seconds = min(seconds, ANSWER_SECONDS)
        answer = self.ask_all([{**self._asked, "others": list(patterns)}])[0] if patterns else None
        kinds, compared = (answer or {}).get("kinds"), (answer or {}).get("compared")
        if isinstance(kinds, list) and len(kinds) == len(patterns) and isinstance(compared, int):
            if all(it in (GROUPS_TOO, SPANS_TOO, TEXTS_ALONE, OTHER) for it in kinds):
                return kinds, compared
        return [GROUPS_TOO] * len(patterns), 0
