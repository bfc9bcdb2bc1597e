"""Asks processes that are kept open, above all `relint-ask` about patterns: many questions are in flight.

A question that takes too long ends its process; another one is started, and answers the rest.
"""
from __future__ import annotations

import json
import os
import select
import time
from collections import deque
from contextlib import suppress
from dataclasses import replace
from typing import Any, Deque, Dict, Iterator, List, Mapping, Optional, Sequence, Tuple

from ..base.model import WIDER, Text, Verdict
from ..options import Options
from .engine import DECODER, ReportError, read_verdict
from .program import READ_AT_A_TIME, NotFound, ProgramError, Running, located

SECONDS = 5.0
MOST_OF_AN_ANSWER = 1 << 26
# How many questions a process is given before it has answered, how long others wait before another process is started, and
# how many bytes of questions and answers are kept.
IN_FLIGHT, SECONDS_ALONE, MOST_KEPT = 32, 0.03, 1 << 26
LATE: Mapping[str, Any] = {"answer": "late"}
LETTERS = {256: "a", 2: "i", 4: "L", 8: "m", 16: "s", 32: "u", 64: "x"}
# Flags that change nothing of what a pattern finds.
WITHOUT_EFFECT = 128


def letters(flags: int) -> Optional[str]:
    """Returns the letters of the flags of a call, as questions have them; None for flags that aren't known."""
    if flags & ~(sum(LETTERS) | WITHOUT_EFFECT):
        return None
    return "".join(letter for value, letter in LETTERS.items() if flags & value)


def question(ask: str, pattern: Text, flags: int, **more: Any) -> Dict[str, Any]:
    """Returns a question about a pattern under its flags, with other keys; bytes have a character for each byte."""
    said: Dict[str, Any] = {"ask": ask, "pattern": as_text(pattern), "flags": letters(flags) or "", **more}
    return {**said, "bytes": True} if isinstance(pattern, bytes) else said


def pair(ask: str, first: Text, second: Text, flags: int, **more: Any) -> Dict[str, Any]:
    """Returns a question about two patterns of the same type, as `question` does about one."""
    said = question(ask, first, flags, second=as_text(second), **more)
    said["first"] = said.pop("pattern")
    return said


def as_text(pattern: Text) -> str:
    """Returns a pattern or text as questions have it: for bytes, a character for each byte."""
    return pattern.decode("latin-1") if isinstance(pattern, bytes) else pattern


class Service:
    """A process that answers lines: the numbers of the questions that it has, the bytes on the way, and when it is late."""

    def __init__(self, words: Sequence[str], environment: Optional[Mapping[str, str]] = None) -> None:
        """Starts the process. Raises ProgramError if it can't be started."""
        self.running = Running(words, has_input=True, environment=environment)
        os.set_blocking(self.running.into, False)
        self.asked: Deque[int] = deque()
        self.unwritten: Deque[memoryview] = deque()
        self.unread = b""
        self.until = 0.0

    def put(self, number: int, line: bytes, seconds: float) -> None:
        """Gives it a question."""
        if not self.asked:
            self.until = time.monotonic() + seconds
        self.asked.append(number)
        self.unwritten.append(memoryview(line))

    def write(self) -> None:
        """Writes as much as the process takes. Raises OSError if it has ended."""
        with suppress(BlockingIOError):
            while self.unwritten:
                done = os.write(self.running.into, self.unwritten[0])
                self.unwritten[0] = self.unwritten[0][done:]
                if not self.unwritten[0]:
                    self.unwritten.popleft()

    def read(self, seconds: float) -> List[Tuple[int, bytes]]:
        """Returns the answers that have come, with the numbers of their questions. Raises OSError if the process has ended."""
        part = os.read(self.running.out, READ_AT_A_TIME)
        if not part:
            raise OSError("it has ended")
        self.unread += part
        lines: List[bytes] = []
        if b"\n" in part:
            *lines, self.unread = self.unread.split(b"\n")
        if len(self.unread) > MOST_OF_AN_ANSWER or len(lines) > len(self.asked):
            raise OSError("it writes too much")
        if lines:
            self.until = time.monotonic() + seconds
        return [(self.asked.popleft(), it) for it in lines]


class Services:
    """Processes that answer lines, at most `jobs` at a time, each with at most `in_flight` questions.

    A first one is started for the first line, and others if many lines wait. One that takes more than `seconds` for an answer
    is ended. Nothing goes on after the `deadline` of `time.monotonic`; `late` says that it has passed with a line unanswered.
    """

    def __init__(self, jobs: int, seconds: float, deadline: float = float("inf"), in_flight: int = IN_FLIGHT) -> None:
        self.jobs, self.seconds, self.deadline, self.in_flight = max(1, jobs), seconds, deadline, in_flight
        self.late = False
        self._services: List[Service] = []

    def started(self) -> Service:
        """Returns a new process. Raises ProgramError if it can't be started."""
        raise NotImplementedError

    def answers(self, lines: Sequence[bytes]) -> Iterator[Tuple[int, Optional[bytes]]]:
        """Yields the number of each line with its answer, as they come; None for one that took too long or ended a process."""
        waiting = deque(range(len(lines)))
        begun = time.monotonic()
        try:
            while waiting or any(it.asked for it in self._services):
                if time.monotonic() >= self.deadline:
                    self.late = True
                    self.close()
                    return
                self._hand_out(waiting, lines, begun)
                yield from self._wait(waiting)
        except BaseException:
            self.close()
            raise

    def close(self) -> None:
        """Ends the processes. The next question starts another."""
        while self._services:
            self._services.pop().running.end()

    def _hand_out(self, waiting: Deque[int], lines: Sequence[bytes], begun: float) -> None:
        """Gives questions that wait to processes; starts a first one, and others once the first ones have had a while."""
        if not self._services:
            self._services.append(self.started())
        elif len(waiting) > 1 and len(self._services) < self.jobs and time.monotonic() - begun > SECONDS_ALONE:
            self._services.append(self.started())
        fair = 1 + len(waiting) // (2 * self.jobs)
        for service in self._services:
            while waiting and len(service.asked) < min(self.in_flight, fair):
                number = waiting.popleft()
                service.put(number, lines[number], self.seconds)

    def _wait(self, waiting: Deque[int]) -> List[Tuple[int, Optional[bytes]]]:
        """Returns the next answers, None for late or ended processes, whose other questions wait again."""
        busy = [it for it in self._services if it.asked]
        first = min([self.deadline, *(it.until for it in busy)])
        if len(waiting) > 1 and len(self._services) < self.jobs:
            first = min(first, time.monotonic() + SECONDS_ALONE)
        outs, intos = [it.running.out for it in busy], [it.running.into for it in busy if it.unwritten]
        readable, writable, _ = select.select(outs, intos, [], max(0.0, first - time.monotonic()))
        found: List[Tuple[int, Optional[bytes]]] = []
        for it in busy:
            try:
                if it.running.into in writable:
                    it.write()
                if it.running.out in readable:
                    found += it.read(self.seconds)
                is_lost = bool(it.asked) and time.monotonic() >= it.until
            except OSError:
                is_lost = bool(it.asked)
            if is_lost:
                found.append((it.asked.popleft(), None))
                waiting.extendleft(reversed(it.asked))
                self._services.remove(it)
                it.running.end()
        return found


class Asker(Services):
    """Asks relint-ask, and keeps its answers. If there is none, `missing` says so once asked, and all answers are LATE."""

    def __init__(self, options: Options, deadline: float = float("inf"), seconds: float = SECONDS) -> None:
        """Takes the options, the time of `time.monotonic` after which nothing is asked, and the seconds for a question."""
        super().__init__(options.jobs, seconds, deadline)
        self.pairs = options.max_pairs
        self.missing = ""
        self.count = 0
        self._known: Dict[bytes, Mapping[str, Any]] = {}
        self._size = 0
        self._is_known_to_be_right = False

    def ask_all(self, questions: Sequence[Mapping[str, Any]]) -> List[Mapping[str, Any]]:
        """Returns the answer to each question, in order; LATE for one that took too long or that ended a process.

        Answers are kept, so that nothing is asked twice. Raises ProgramError if relint-ask can't be run or is another program.
        """
        lines = [json.dumps(it, sort_keys=True, separators=(",", ":")).encode("ascii") + b"\n" for it in questions]
        answers = {it: self._known.get(it) for it in lines}
        new = [it for it, answer in answers.items() if answer is None]
        if new and self._is_there():
            self.count += len(new)
            self._size += sum(map(len, new))
            if self._size > MOST_KEPT:
                self._known, self._size = {}, sum(map(len, new))
            for number, line in self.answers(new):
                answers[new[number]] = self._known[new[number]] = LATE if line is None else _read(line)
        return [answers[it] or LATE for it in lines]

    def ask(self, one: Mapping[str, Any]) -> Mapping[str, Any]:
        """Returns the answer to one question, as `ask_all` does."""
        return self.ask_all([one])[0]

    def verdicts(self, pairs: Sequence[Tuple[Text, int, str]]) -> List[Optional[Verdict]]:
        """Returns each pattern's class in its mode; None if it is refused, late, or has unknown flags. Raises ProgramError."""
        asked = {at: question("class", pattern, flags, mode=mode, pairs=self.pairs)
                 for at, (pattern, flags, mode) in enumerate(pairs) if letters(flags) is not None}
        found = dict(zip(asked, map(verdict_of, self.ask_all(list(asked.values())))))
        return [found.get(at) for at in range(len(pairs))]

    def _is_there(self) -> bool:
        """Whether there is a relint-ask; if not, that is noted."""
        try:
            return not self.missing and bool(located("relint-ask"))
        except NotFound as error:
            self.missing = str(error)
            return False

    def started(self) -> Service:
        """Returns a new process. Raises ProgramError if it can't be started, or if the first one doesn't say what it is."""
        program = located("relint-ask")
        service = Service([program])
        if not self._is_known_to_be_right:
            service.put(-1, b'{"ask":"version"}\n', self.seconds)
            answer: Mapping[str, Any] = {}
            with suppress(OSError):
                service.write()
                while service.asked and select.select([service.running.out], [], [], self.seconds)[0]:
                    for _, line in service.read(self.seconds):
                        answer = _read(line)
            if answer.get("answer") != "version":
                service.running.end()
                raise ProgramError(f"{program} isn't relint-ask: it doesn't say its version")
            self._is_known_to_be_right = True
        return service


def _read(line: bytes) -> Mapping[str, Any]:
    """Returns the answer in a line; one that can't be read counts as an error."""
    try:
        found: Any = DECODER.decode(line.decode("utf-8"))
    except (ValueError, RecursionError, ReportError) as error:
        return {"answer": "error", "message": f"an answer that can't be read: {error}"}
    if isinstance(found, dict) and isinstance(found.get("answer"), str):
        return found
    return {"answer": "error", "message": "no answer"}


def verdict_of(answer: Mapping[str, Any]) -> Optional[Verdict]:
    """Returns the class in the answer to a question `class` or `ways`; None if it has none."""
    if answer.get("answer") not in ("class", "ways"):
        return None
    try:
        beyond = tuple(it for it in WIDER if it in answer.get("beyond", ()))
        return replace(read_verdict(answer), beyond=beyond or None)
    except (ReportError, KeyError, TypeError, AttributeError):
        return None
