"""The command `rlt`: reads the words, does what they say, and ends with a status. Only this module imports inside functions.

0: looked, no finding. 1: findings. 2: words or configuration. 3: something wasn't read or judged in time. 4: output failed.
5: no memory. 130: Ctrl-C. 143: SIGTERM.
"""
from __future__ import annotations

import importlib
import os
import signal
import sys
import time
from contextlib import closing
from dataclasses import replace
from typing import Any, Callable, Iterable, List, Optional, Sequence, Tuple

from .base.model import ACCEPTED, NEW, Finding, Summary
from .base.safe import Unwritten, WriteError, line, replace_named, visible, write
from .options import Options, OptionsError, WORDS, common_folder, given_by, help_of, read_options, version

FINDING, REFUSED, NOT_READ, UNWRITTEN, NO_MEMORY, INTERRUPTED = 1, 2, 3, 4, 5, 130
# The statuses of errors that have none themselves, by the names of their classes, so that no module is loaded for them.
STATUSES = {"ProgramError": REFUSED, "ReportError": REFUSED, "GitError": REFUSED, "TakersError": REFUSED,
            "OpenError": NOT_READ, "WriteError": UNWRITTEN}
# The function of each layout, and of each word that has a module of its own.
LAYOUTS = {
    "terminal": ".show.terminal:lines", "concise": ".show.servers:concise", "github": ".show.servers:github",
    "gitlab": ".show.servers:gitlab", "sarif": ".show.servers:sarif", "json": ".show.servers:json_report",
    "html": ".show.html:lines",
}
OTHERS = {"confirm": ".show.tried:confirm", "record": ".show.tried:record", "server": ".server:serve",
          "pattern": ".show.one:pattern", "compare": ".show.one:compare"}


def main(words: Optional[Sequence[str]] = None) -> int:
    """Does what the words say, or those in `sys.argv`, and returns the status; errors are one line on standard error."""
    given = list(sys.argv[1:] if words is None else words)
    before = _on_signals(_stop)
    try:
        return _done(given)
    except KeyboardInterrupt:
        return INTERRUPTED
    except Stopped as stopped:
        return 128 + stopped.number
    except MemoryError:
        return _failed("out of memory", NO_MEMORY)
    except Unwritten as error:
        return _failed(f"standard output can't be written: {error}" if str(error) else "", UNWRITTEN)
    except Exception as error:
        status = getattr(error, "status", STATUSES.get(type(error).__name__))
        if not isinstance(status, int):
            raise
        return _failed(str(error), status)
    finally:
        for number, how in before:
            signal.signal(number, how)


class Stopped(BaseException):
    """Raised by a signal that ends the command, so that what it started and made is taken away."""

    def __init__(self, number: int) -> None:
        super().__init__()
        self.number = number


def _stop(number: int, _: object) -> None:
    """Raises Stopped; a further such signal changes nothing."""
    _on_signals(signal.SIG_IGN)
    raise Stopped(number)


def _on_signals(how: Any) -> List[Tuple[int, Any]]:
    """Sets what SIGTERM and SIGHUP do unless they are ignored, in the main thread alone; returns what they did before."""
    found = [(it, signal.getsignal(it)) for it in (signal.SIGTERM, signal.SIGHUP)]
    try:
        return [(it, signal.signal(it, how)) for it, before in found if before != signal.SIG_IGN]
    except ValueError:
        return []


def _failed(message: str, status: int) -> int:
    """Says on standard error what failed, unless the message is empty, and returns the status."""
    if message:
        say([message])
    return status


def say(lines: Iterable[str]) -> None:
    """Writes lines to standard error, each with the name of the command in front; one that can't be written is lost."""
    for it in lines:
        try:
            print(f"rlt: {visible(it)}", file=sys.stderr, flush=True)
        except (OSError, ValueError):
            return


def put(lines: Iterable[str]) -> None:
    """Writes lines to standard output. Raises Unwritten if it can't be written."""
    for it in lines:
        write(it + "\n")


def _done(words: List[str]) -> int:
    """Does what the words say, and returns the status."""
    word = words[0] if words and words[0] in WORDS else "check"
    # (what comes behind these may belong to the command that is recorded)
    own = words[:2] if word == "record" else words[:words.index("--")] if "--" in words else words
    if "--version" in own:
        put([f"rlt {version()}"])
        return 0
    if "--help" in own or "-h" in own:
        write(help_of("" if own[0] in ("-h", "--help") else word))
        return 0
    options = _options(words)
    options = replace(options, color=_colour(options.color))
    if options.word in OTHERS:
        done: Any = _function(OTHERS[options.word])(options)
        # (a word that finds something hands it on to be shown; the others answer with their status)
        return shown(done[0], done[1], done[2], options) if isinstance(done, tuple) else int(done)
    return {"check": check, "fix": fix, "accept": accept, "explain": explain}[options.word](options)


def _options(words: Sequence[str]) -> Options:
    """The options that the words give; with a baseline commit, the configuration is that of the commit."""
    given = given_by(words)
    commit = given.values.get("baseline_commit")
    if not commit or commit.startswith("-"):
        return read_options(words)
    from .git import Earlier

    named = () if "reports" in given.values else given.rest
    if named == ("-",):
        named = (given.values.get("stdin_filename", "."),)
    until = time.monotonic() + given.values.get("seconds", Options.seconds)
    with closing(Earlier(commit, common_folder(named or ["."]), until)) as earlier:
        return read_options(words, ".", earlier.data)


def _colour(choice: str) -> str:
    """Whether colours are used, as "always" or "never": with auto, on a terminal, unless NO_COLOR is set."""
    if choice != "auto":
        return choice
    is_plain = os.environ.get("NO_COLOR") or os.environ.get("TERM") == "dumb" or sys.stdout is None
    return "never" if is_plain or not sys.stdout.isatty() else "always"


def _function(name: str) -> Callable[..., Any]:
    """The function with this name, as ".module:function"."""
    module, _, function = name.partition(":")
    found: Callable[..., Any] = getattr(importlib.import_module(module, __package__), function)
    return found


# ---- runs

class Progress:
    """Shows on a terminal how far a run is, once it takes longer than a second; `close` takes the line away."""

    EVERY = 0.1

    def __init__(self, quiet: bool) -> None:
        """Takes whether nothing is to be shown."""
        self.on = not quiet and sys.stderr is not None and sys.stderr.isatty() and os.environ.get("TERM") != "dumb"
        self.next, self.shown = time.monotonic() + 1.0, False

    def __call__(self, done: int, every: int, findings: int) -> None:
        """Shows how many of how many files were judged, and how many findings there are so far."""
        if self.on and time.monotonic() >= self.next:
            self.next, self.shown = time.monotonic() + self.EVERY, True
            self._put(f"\r\x1b[K{done:,} of {every:,} files, {findings:,} findings")

    def close(self) -> None:
        """Takes the line away."""
        if self.shown:
            self.shown = False
            self._put("\r\x1b[K")

    def _put(self, text: str) -> None:
        """Writes to standard error; after an error, nothing more is shown."""
        try:
            sys.stderr.write(text)
            sys.stderr.flush()
        except (OSError, ValueError):
            self.on = False


def ran(options: Options) -> Tuple[List[Finding], Summary, int]:
    """Returns the findings of a run, its summary and its status, and shows progress meanwhile."""
    from .stages import pipeline

    with closing(Progress(options.quiet)) as progress:
        findings, summary = pipeline.run(options, progress)
    return findings, summary, pipeline.status_of(findings, summary, options)


def check(options: Options) -> int:
    return shown(*ran(options), options)


def shown(findings: Sequence[Finding], summary: Summary, status: int, options: Options) -> int:
    """Writes the findings in all formats that the options name, and returns the status."""
    for number, (name, file) in enumerate(options.write):
        summary.clock.share(len(options.write) + 1 - number)
        plain = replace(options, color="never", format=name)
        text = "".join(it + "\n" for it in _function(LAYOUTS[name])(findings, summary, plain))
        try:
            say(f"{file}: {lost}" for lost in replace_named(file, text.encode("utf-8", "backslashreplace")))
        except WriteError as error:
            status = _failed(f"{file} can't be written: {error}", UNWRITTEN)
    summary.clock.share(1)
    put(_function(LAYOUTS[options.format])(findings, summary, options))
    return NOT_READ if summary.clock.left and status < NOT_READ else status


def _facts(findings: Sequence[Finding], summary: Summary, options: Options) -> None:
    """Says on standard error what each word says of a run: what wasn't looked at, what is narrowed, and what is late."""
    from .show.terminal import facts

    say(facts(findings, summary, options))


def fix(options: Options) -> int:
    """Does `rlt fix`, and returns the status: 1 if a finding is left."""
    from .mend import edits

    findings, summary, status = ran(options)
    lines, left = edits.fix(findings, summary.folders, options, summary.clock.end)
    put(lines if options.diff else map(line, lines))
    _facts(findings, summary, options)
    return status if status > FINDING else left


def accept(options: Options) -> int:
    """Does `rlt accept`, and returns the status: 1 if a finding that was named can't be accepted."""
    from .stages import accept as accepting

    reason = accepting.checked_reason(options.reason) if not options.prune or options.reason else ""
    before = accepting.load(options)
    findings, summary, status = ran(options)
    after, lost = before, 0
    if options.prune:
        after = accepting.pruned(before, findings, options)
    else:
        moved = accepting.old_entries(before, findings, options)
        for it in _named(findings, options):
            try:
                after = accepting.with_finding(after, it, reason, next((row for one, row in moved if one is it), None))
                put([line(f"{it.entry.path}:{it.place.line}: {accepting.class_words(it)}, accepted")])
            except accepting.AcceptError as error:
                lost = _failed(str(error), FINDING)
    say(accepting.write(after, options))
    more = len(after.rows) - len(before.rows)
    put([line(f"{after.file}: {len(after.rows):,} accepted, {more:+,}")])
    _facts(findings, summary, options)
    return status if status > FINDING else lost


def _named(findings: Sequence[Finding], options: Options) -> List[Finding]:
    """The findings that are to be accepted. Raises OptionsError if none is at a place that was named."""
    from .stages.accept import at_place, can_be_accepted

    possible = [it for it in findings if it.state == ACCEPTED or can_be_accepted(it, options)]
    if options.accept_all:
        return [it for it in possible if it.state == NEW or it.state != ACCEPTED and options.strict]
    found: List[Finding] = []
    for place in options.places:
        there = [it for it in possible if at_place(it, place)]
        if not there:
            lines = sorted({it.place.line for it in possible if it.entry.path == place[0]})
            others = f"there are some in line {', '.join(map(str, lines[:9]))}" if lines else "nor anywhere in the file"
            raise OptionsError(f"{place[0]}:{place[1]}: no finding is there: {others}")
        found += [it for it in there if it not in found]
    return found


def explain(options: Options) -> int:
    from .base.words import explained, pages, topics

    topic = options.arguments[0]
    text = explained(topic)
    if text is None:
        near = topics(topic)
        every = f"give a rule such as RLT100, a cause such as lookaround, or a page: {', '.join(pages())}"
        hint = f"did you mean {near[0]}?" if near else every
        return _failed(f"there is nothing to explain on {topic[:60]!r}; {hint}", REFUSED)
    write(text)
    return 0


if __name__ == "__main__":
    sys.exit(main())
