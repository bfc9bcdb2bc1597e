"""Runs the tests that need no proof; `./test` calls it. `tests/README.md` says what each part tries."""
from __future__ import annotations

import argparse
import concurrent.futures
import subprocess
import sys
import time
from functools import partial
from typing import Callable, Dict, List, Tuple

from runner import arm64, ask, book, code, examples, hardening, hook, hostile, outside, pages, release, rows, versions
from runner.programs import TREE, Program, behind_launcher, tested_program
from runner.results import Failed, Result

PARTS: Dict[str, Callable[[Program], Result]] = {
    "rows": rows.run,
    "ask": ask.run,
    "book": book.run,
    "examples": examples.run,
    "pages": pages.run,
    "python": code.run,
    "launcher": outside.launcher,
    "packaging": outside.packaging,
    "hook": hook.run,
    "hostile": hostile.run,
    "fuzz": outside.fuzz,
    "faults": outside.faults,
    "valgrind": outside.valgrind,
    "hardening": hardening.run,
    "versions": versions.run,
    "release": release.run,
    "arm64": arm64.run,
}
if (TREE / "tools" / "crosscheck").exists():
    PARTS["crosscheck"] = outside.crosscheck

# the parts of which some tests can be run alone, by a part of their names
FILTERED: Dict[str, Callable[..., Result]] = {"rows": rows.run_some, "python": code.run_some}

# how many parts run at the same time, and which are begun first, since they take longest
_AT_ONCE = 4
_FIRST = ("arm64", "packaging", "python", "launcher", "hook", "hostile")


def parsed(words: List[str]) -> argparse.Namespace:
    """The options of the call."""
    reader = argparse.ArgumentParser(
        prog="./test", description="Runs the tests that need no proof, in some minutes.",
        epilog="RELINT=program ./test tries another program than ./relint. The parts: " + ", ".join(PARTS) + ".")
    reader.add_argument("--only", metavar="PART", choices=list(PARTS), action="append",
                        help="only this part; you can give it several times")
    reader.add_argument("filter", metavar="FILTER", nargs="?",
                        help="with --only %s: only the tests that have FILTER in their names" % " or ".join(FILTERED))
    reader.add_argument("--list", action="store_true", help="print the names of the parts")
    options = reader.parse_args(words)
    if options.filter is not None and (len(options.only or []) != 1 or options.only[0] not in FILTERED):
        reader.error("FILTER goes with --only %s" % " or --only ".join(FILTERED))
    return options


def problem_of(program: Program) -> str:
    """Why the program can't be tested, "" where it answers."""
    try:
        # the first call may have to build the program, however long that takes, and says so on standard error
        subprocess.run([str(program.path), "cost", "", ""], stdin=subprocess.DEVNULL, stdout=subprocess.DEVNULL, check=False)
        answer = program.run(["cost", "", ""], TREE)
    except OSError as error:
        return "%s: %s" % (program.path, error.strerror)
    except Failed as failure:
        return str(failure)
    if answer.status != 0 or answer.stdout != "steps 2 matched\n":
        return "%s ends with status %d" % (program.path, answer.status)
    if answer.stderr:
        return "this isn't the program of this tree; to test it all the same, name its file: RELINT=.. ./test"
    return ""


def timed(run: Callable[[Program], Result], program: Program) -> Tuple[Result, float]:
    """Runs a part, and says how many seconds it took."""
    start = time.monotonic()
    return run(program), time.monotonic() - start


def part(name: str, options: argparse.Namespace) -> Callable[[Program], Result]:
    """The part of this name, or some of its tests."""
    if options.filter is None:
        return PARTS[name]
    return partial(FILTERED[name], wanted=options.filter)


def show(name: str, result: Result, seconds: float) -> None:
    """Prints what came of a part."""
    print("%s: %s (%.1f s)" % (name, result.counts(), seconds))
    for note in result.skips:
        print("  skipped %s: %s" % (note.test, note.reason))
    for note in result.failures:
        print("  FAILED %s: %s" % (note.test, note.reason))
    sys.stdout.flush()


def main(words: List[str]) -> int:
    """Runs the parts that are asked for, and answers the status."""
    options = parsed(words)
    if options.list:
        print("\n".join(PARTS))
        return 0
    program = tested_program()
    problem = problem_of(program)
    if problem:
        print("test: " + problem, file=sys.stderr)
        return 2
    program = behind_launcher(program)
    whole = Result()
    names = [name for name in PARTS if name in (options.only or PARTS)]
    with concurrent.futures.ThreadPoolExecutor(_AT_ONCE) as pool:
        begun = sorted(names, key=lambda name: name not in _FIRST)
        runs = {name: pool.submit(timed, part(name, options), program) for name in begun}
        for name in names:
            result, seconds = runs[name].result()
            show(name, result, seconds)
            whole.add(result)
    print(whole.counts())
    return 1 if whole.failures else 0


if __name__ == "__main__":
    try:
        sys.exit(main(sys.argv[1:]))
    except KeyboardInterrupt:
        print("test: interrupted", file=sys.stderr)
        sys.exit(130)
