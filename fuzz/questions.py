"""The target `asks`: lines for relint-ask, mostly questions, and what has to come of them."""
from __future__ import annotations

import json
import subprocess
from typing import Any, Dict, List, Optional, Set, Tuple

from chance import STRANGE, VALUES, Chance
from program import SECONDS, Ran, Runner
from runner.programs import tested_ask

MODES = ("search", "match", "fullmatch", "one-search")
TOKENS = [it.encode("utf-8") for it in ('"', "{", "}", ":", ",", "null", "\\u0000", "\\ud800", "[" * 3000, "1e999", *STRANGE)]
# The keys that each answer has, and may have.
ANSWERS: Dict[str, Tuple[Set[str], Set[str]]] = {
    "same": (set(), set()), "differ": ({"empty", "first", "from", "second", "text"}, set()), "exceeded": ({"limit"}, set()),
    "undecided": ({"cause"}, set()), "refused": ({"cause"}, {"pattern", "at"}), "error": ({"message"}, set()),
    "class": ({"kind"}, {"degree", "limit", "over", "family", "at-least", "at-most"}),
    "ways": ({"kind"}, {"degree", "limit", "over", "family", "twin", "splits", "cycle"}),
    "tree": ({"tree", "letters", "leading", "trailing"}, set()), "cost": ({"steps"}, {"matched"}),
    "compare": ({"relation"}, {"first", "second", "both", "more", "limit"}), "found": ({"found"}, set()),
    "suggest": ({"dropped", "merged", "passed"}, {"text"}), "version": ({"version", "asks"}, set())}
ONE = ("class", "ways", "tree", "cost", "found", "suggest")


def _question(chance: Chance) -> Dict[str, Any]:
    """Returns a random question, as an object of JSON: mostly a right one, and mostly about two patterns near each other."""
    first = chance.pattern()
    near = chance.changed(first.encode("utf-8"), [b"a", b"(", b")", b"*", b"?", b"|"]).decode("utf-8", "replace")
    if chance.one(2):
        made: Dict[str, Any] = {"ask": chance.pick(ONE), "pattern": first}
        if made["ask"] in ("cost", "found"):
            made["text"] = chance.pick(["", "ab", "aaaaaaaa", "\u00e9"])
        more: Dict[str, Any] = {"mode": chance.pick(MODES[:3])} if made["ask"] not in ("tree", "suggest") else {}
    else:
        made = {"ask": chance.pick(["spans", "spans", "compare"]), "first": first, "second": chance.pick([chance.pattern(),
                                                                                                          near])}
        more = {"mode": chance.pick(MODES if made["ask"] == "spans" else MODES[:3]), "limit": chance.pick([1, 2, 50, 6000])}
    more.update(flags="".join(chance.some("aimsux", 2)), bytes=chance.one(2))
    for key, value in more.items():
        if chance.one(3):
            made[key] = value
    if chance.one(8):
        made[chance.pick([*made, "groups", "pairs", ""])] = chance.pick(VALUES)
    return made


def asks(runner: Runner, chance: Chance, kept: Optional[bytes]) -> None:
    """Each line has one answer of a known form; asked the other way round, a pair has the same word.

    The lines are those of `kept`, or random ones if it is None; `runner` isn't used. Does nothing if there is no program
    relint-ask. Raises Wrong.
    """
    tested = tested_ask()
    if tested is None:
        return
    program = str(tested)
    if kept is not None:
        lines = kept.rstrip(b"\n").split(b"\n")
    else:
        lines = [json.dumps(_question(chance)).encode("ascii") for _ in range(1 + chance.below(4))]
        if chance.one(4):
            lines = chance.changed(b"\n".join(lines), TOKENS).split(b"\n")
    lines = [it for it in lines if it] or [b"{}"]
    answers = _asked(program, lines)
    _asked_mirrored(program, lines, answers)


def _asked(program: str, lines: List[bytes]) -> List[Dict[str, Any]]:
    """Returns the answers of relint-ask to these lines.

    Raises Wrong if it isn't done in time, has another status than 0, writes to standard error, or doesn't give one answer of a
    known form for each line; ValueError if an answer isn't JSON.
    """
    given = b"".join(it + b"\n" for it in lines)
    try:
        ran = subprocess.run([program], input=given, stdout=subprocess.PIPE, stderr=subprocess.PIPE, timeout=SECONDS * 10)
    except subprocess.TimeoutExpired:
        Ran([], -24, b"", given[:400], 0).need(False, "no answer in %d s" % (SECONDS * 10))
        raise
    shown = Ran([], ran.returncode, ran.stdout, ran.stderr or given[:400], 0)
    shown.need(ran.returncode == 0 and not ran.stderr, "questions have another status than 0, or a message")
    answers = [json.loads(it) for it in shown.text().split("\n")[:-1]]
    shown.need(len(answers) == len(lines), "%d lines have %d answers" % (len(lines), len(answers)))
    for answer in answers:
        needed, more = ANSWERS.get(answer.get("answer", ""), ({"?"}, set()))
        keys = set(answer) - {"answer"}
        shown.need(needed <= keys <= needed | more, "an answer of no known form: %r" % (answer,))
    return answers


def _asked_mirrored(program: str, lines: List[bytes], answers: List[Dict[str, Any]]) -> None:
    """Asks each pair that was compared the other way round. Raises Wrong, unless the answer has the same word.

    The limit may be exceeded the other way round.
    """
    mirrored, wanted = [], []
    for line, answer in zip(lines, answers):
        if answer["answer"] in ("same", "differ"):
            question = json.loads(line)
            question["first"], question["second"] = question["second"], question["first"]
            mirrored.append(json.dumps(question).encode("ascii"))
            wanted.append((line, answer["answer"]))
    if mirrored:
        for (line, word), answer in zip(wanted, _asked(program, mirrored)):
            holds = answer["answer"] in (word, "exceeded")
            shown = Ran([line.decode("utf-8", "replace")], 0, json.dumps(answer).encode(), b"", 0)
            shown.need(holds, "the other way round: " + word)
