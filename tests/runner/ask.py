"""The part `ask`: the program relint-ask on its worked questions, and what it says beside `relint` and Python's own `re`."""
from __future__ import annotations

import ast
import json
import os
import re
import subprocess
from functools import partial
from typing import Any, Dict, List, Optional

from runner import elf, release
from runner.programs import TREE, Program, clean_environment, tested_ask
from runner.results import Failed, Result, Skipped

CRATE = TREE / "crates" / "relint_ask"
_FLAGS = {"a": re.A, "i": re.I, "m": re.M, "s": re.S, "x": re.X, "u": re.U}
_LONGEST = 4_194_304
_PATTERNS = ["a", "(a|a)*b", r"^(\w+,?)*$", r"\s+(.+), subnet", "a*a*b", "[0-9a-f]{4}", "(", "(?=ab)", r"(a)\1"]


def tested() -> List[str]:
    """The words that run the program that is tested. Raises `Skipped` if there is none, or no emulator for it."""
    path = tested_ask()
    if path is None:
        raise Skipped("there is no program relint-ask: tools/release makes it")
    content = path.read_bytes()
    machine = elf.Elf(content).machine if content[:4] == b"\x7fELF" else os.uname().machine
    return release.command_for(machine, str(path))


def asked(words: List[str], given: str = "") -> "subprocess.CompletedProcess[str]":
    """Runs the program with these words and this input."""
    return subprocess.run([*tested(), *words], cwd=str(TREE), env=clean_environment(), input=given, stdout=subprocess.PIPE,
                          stderr=subprocess.PIPE, encoding="utf-8", timeout=600, check=False)


def _replies(questions: List[Dict[str, Any]]) -> List[Dict[str, Any]]:
    """The replies to questions. Raises `Failed` if there aren't as many, or one isn't JSON."""
    ran = asked([], "".join(json.dumps(it) + "\n" for it in questions))
    lines = ran.stdout.splitlines()
    if len(lines) != len(questions) or ran.returncode != 0 or ran.stderr:
        raise Failed("%d questions have %d replies, status %d, %r" % (len(questions), len(lines), ran.returncode, ran.stderr))
    return [json.loads(it) for it in lines]


def _row(question: str, wanted: str) -> None:
    ran = asked([], question + "\n")
    if (ran.stdout, ran.stderr, ran.returncode) != (wanted + "\n", "", 0):
        raise Failed("%s: it answers %r and %r, status %d; wanted is %r" % (
            question, ran.stdout, ran.stderr, ran.returncode, wanted))


def _all_at_once(questions: List[str], wanted: List[str]) -> None:
    ran = asked([], "".join(it + "\n" for it in questions))
    if ran.stdout.splitlines() != wanted or ran.returncode != 0:
        raise Failed("asked together, the questions have other answers")


def _shown(match: "Optional[re.Match[Any]]") -> str:
    """What a match found, in the program's words."""
    if match is None:
        return "none"
    parts = ["(%d, %d)" % match.span()]
    for group in range(1, match.re.groups + 1):
        span = match.span(group)
        parts.append("%d=%s" % (group, "none" if span[0] < 0 else "(%d, %d)" % span))
    return " ".join(parts + (["last=%d" % match.lastindex] if match.lastindex else []))


def not_empty(compiled: Any, text: Any, start: int) -> "Optional[re.Match[Any]]":
    """Returns the first match that begins at `start` and isn't empty, or None. A scanner finds it after an empty one."""
    scanner = compiled.scanner(text, start)
    match: "Optional[re.Match[Any]]" = scanner.match()
    return scanner.match() if match is not None and match.end() == start else match


def _compiled(pattern: str, question: Dict[str, Any]) -> "re.Pattern[Any]":
    """The pattern of a question, compiled by Python."""
    flags = 0
    for letter in question.get("flags", ""):
        flags |= _FLAGS[letter]
    compiled: "re.Pattern[Any]" = re.compile(pattern.encode("latin-1") if question.get("bytes") else pattern, flags)
    return compiled


def _agrees(question: str, answer: str) -> None:
    """A difference is one for `re` too: it finds what the program says."""
    given, said = json.loads(question), json.loads(answer)
    text = ast.literal_eval(said["text"])
    for side in ("first", "second"):
        compiled = _compiled(given[side], given)
        if said["empty"]:
            call = {"fullmatch": compiled.fullmatch, "one-search": compiled.search}.get(given.get("mode", "search"),
                                                                                        compiled.match)
            match = call(text, said["from"])
        else:
            match = not_empty(compiled, text, said["from"])
        found = _shown(match)
        wanted = said[side] if given.get("groups", True) else said[side].partition(" 1=")[0]
        if found != wanted and (given.get("groups", True) or found.split(" 1=")[0] != wanted):
            raise Failed("%s: on %r from %d, re finds %s, and the program says %s" % (given[side], text, said["from"], found,
                                                                                      said[side]))


def _same_class(program: Program, mode: str) -> None:
    """The classes of some patterns are those that `relint class` says."""
    replies = _replies([{"ask": "class", "pattern": it, "mode": mode} for it in _PATTERNS])
    for pattern, reply in zip(_PATTERNS, replies):
        answer = program.run(["class", "--mode", mode, "--max-pairs", "1000", "--", pattern], TREE)
        if reply["answer"] == "refused":
            place = " at %d" % reply["at"] if "at" in reply else ""
            wanted, said = answer.stderr, "relint: refused %s%s\n" % (reply["cause"], place)
        else:
            wanted = answer.stdout.splitlines()[0]
            said = "exponential" if reply["kind"] == "exponential" else "degree %d" % reply["degree"]
        if said != wanted:
            raise Failed("%s as %s: relint says %r, relint-ask %r" % (pattern, mode, wanted, reply))


def _goes_on() -> None:
    """A line that is too long, one that isn't JSON, an unknown key: each has its own reply, and the next has its answer."""
    lines = ['{"ask":"class","pattern":"' + "a" * _LONGEST + '"}', "no JSON", '{"ask":"class","pattern":"a","colour":1}', "",
             '{"ask":"class","pattern":"(a|a)*b","mode":"match"}']
    ran = asked([], "\n".join(lines) + "\n")
    replies = [json.loads(it) for it in ran.stdout.splitlines()]
    kinds = [it["answer"] for it in replies]
    if kinds != ["error"] * 4 + ["class"] or "colour" not in replies[2]["message"] or "4194304" not in replies[0]["message"]:
        raise Failed("it replies %r" % [str(it)[:100] for it in replies])


def _replies_at_once() -> None:
    """The reply to a line comes before the next line is there."""
    with subprocess.Popen(tested(), cwd=str(TREE), env=clean_environment(), stdin=subprocess.PIPE,
                          stdout=subprocess.PIPE) as running:
        assert running.stdin is not None and running.stdout is not None
        for _ in range(2):
            running.stdin.write(b'{"ask":"version"}\n')
            running.stdin.flush()
            reply = json.loads(running.stdout.readline())
            if reply["answer"] != "version":
                raise Failed("it replies %r" % reply)
        running.stdin.close()


def _takes_no_words() -> None:
    ran = asked(["a", "b"])
    if ran.returncode != 2 or ran.stdout or not ran.stderr.startswith("usage: relint-ask"):
        raise Failed("it answers %r and %r with status %d" % (ran.stdout, ran.stderr, ran.returncode))


def _says_the_version() -> None:
    version = (TREE / "VERSION").read_text(encoding="utf-8").strip()
    reply = _replies([{"ask": "version"}])[0]
    if reply["version"] != version:
        raise Failed("it says version %s, and the file VERSION %s" % (reply["version"], version))


def run(program: Program) -> Result:
    """Tries the program relint-ask on all of that."""
    result = Result()
    try:
        tested()
    except Skipped as why:
        result.skip("ask", str(why))
        return result
    questions = (CRATE / "stdin").read_text(encoding="utf-8").splitlines()
    answers = (CRATE / "stdout").read_text(encoding="utf-8").splitlines()
    result.take("all at once", partial(_all_at_once, questions, answers))
    for number, (question, answer) in enumerate(zip(questions, answers), 1):
        result.take("question %d" % number, partial(_row, question, answer))
        if '"answer":"differ"' in answer:
            result.take("question %d beside re" % number, partial(_agrees, question, answer))
    for mode in ("search", "match", "fullmatch"):
        result.take("classes in %s" % mode, partial(_same_class, program, mode))
    for name, test in (("goes on", _goes_on), ("replies at once", _replies_at_once), ("no words", _takes_no_words),
                       ("version", _says_the_version)):
        result.take(name, test)
    return result
