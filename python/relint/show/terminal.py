"""The layout for people: each finding with its danger, its source line, why it is slow, a command that shows it, and a fix.

Letters under the pattern's text name its parts, and each row of `why` says which part takes each character of a text. Whatever
comes from a source is written so that it can't control a terminal.
"""
from __future__ import annotations

import unicodedata
from dataclasses import replace
from typing import Callable, Dict, Iterator, List, Optional, Sequence, Set, Tuple

from ..base.model import (
    ACCEPTED, ELSEWHERE, IGNORED, KNOWN, NEW, OTHER, UNUSED, WARNED, Finding, NotLooked, Reading, Span, Step, Summary, Text,
)
from ..base.safe import SERVER_COMMAND, is_seen, line, visible
from ..base.words import (
    CAUSES, class_word, counted, danger, growth_words, listed, offer_words, outcome, quoted, rule_of, try_line, use_words,
)
from ..engine.ask import as_text
from ..options import Options

MOST_LINES, MOST_NAMED, MOST_COLUMNS, MOST_COPIED, MOST_PATTERN, TAB = 8, 5, 30, 15, 200, 4
COLOURS = {"error": "1;31", "warning": "1;33", "place": "1", "dim": "2", "mark": "1;36", "good": "32"}
UNSEEN = "\N{REPLACEMENT CHARACTER}"
SHOWN = {" ": "\u2423", "\n": "\u2424", "\t": "\u21e5", "\r": "\u240d"}
RUNS = {" ": "blanks", "\n": "line ends", "\t": "tabs", "\r": "carriage returns"}
# (a comment for a shell, so that the whole line can be pasted)
CTRL_C = "# Ctrl-C stops it"
DOT, LETTERS = "\u00b7", "ABCDEFGHIJKLMNOPQRSTUVWXYZ"
# The parts of a pattern that rows name, by their spans, with their letters.
Letters = Dict[Span, str]


# Puts the colour that COLOURS has for a name around a text.
Painter = Callable[[str, str], str]


def painter(options: Options) -> Painter:
    """Returns what puts colours around texts, or what leaves them as they are unless `options.color` is "always"."""
    if options.color != "always":
        return lambda name, text: text
    return lambda name, text: f"\x1b[{COLOURS[name]}m{text}\x1b[0m" if text else text


# ---- the parts of the pattern that take the text

def _widths(text: str) -> int:
    """How many columns a text takes."""
    wide = sum(unicodedata.east_asian_width(it) in "WF" for it in text)
    return len(text) + wide - sum(unicodedata.combining(it) != 0 for it in text)


def _shown(character: str) -> str:
    """A character of a text as a row shows it, in one column or two."""
    return SHOWN.get(character) or (character if is_seen(character) and not unicodedata.combining(character) else UNSEEN)


def drawn(finding: Finding) -> Optional[Reading]:
    """Returns the reading to draw: of an exponential pattern, or the last one of two loops; None if it is too long."""
    found = finding.why.drawn if finding.why is not None else None
    if found is None or len(_places(found)) > len(LETTERS):
        return None
    is_whole = {len(way) for way in found.ways} == {len(found.text)} and len(found.ways) == (3 if found.loops else 2)
    fits = is_whole and 0 < len(found.text) <= (MOST_COPIED if found.loops else MOST_COLUMNS)
    return _short(found) if fits else None


def _short(reading: Reading) -> Reading:
    """The same reading with one character, if all characters of a text that is shared out are read in the same way."""
    is_one = len(set(reading.text)) == 1 and all(len({step.place for step in way}) == 1 for way in reading.ways)
    if not is_one or not reading.loops:
        return reading
    return replace(reading, text=reading.text[:1], ways=tuple(way[:1] for way in reading.ways))


def _places(reading: Reading) -> Set[Span]:
    """The parts of the pattern that the rows of a reading show."""
    return {step.place for way in reading.ways for step in way if step.place is not None}


def letters_of(reading: Optional[Reading]) -> Letters:
    """Returns the letters of the parts that a reading shows, from left to right."""
    return dict(zip(sorted(_places(reading)), LETTERS)) if reading is not None else {}


def bar_of(reading: Reading) -> Optional[Span]:
    """Returns the loop whose new rounds are bars: the outermost over several parts, if possible one whose rounds differ."""
    starts = {it[0] for it in _places(reading)}
    rounds: Dict[Span, List[Tuple[bool, ...]]] = {}
    for loop in {it.at for way in reading.ways for step in way for it in step.took if it.side == "round" and it.at}:
        if loop[0] not in starts:
            rounds[loop] = [tuple(_begins(step, loop) for step in way) for way in reading.ways]
    found = sorted(rounds, key=lambda it: (it[0], -it[1]))
    differ = [it for it in found if len(set(rounds[it])) > 1]
    return (differ or found)[0] if found else None


def _begins(step: Step, loop: Optional[Span]) -> bool:
    """Whether a new round of a loop begins before a character."""
    return loop is not None and any(it.side == "round" and it.at == loop for it in step.took)


def rows(reading: Reading) -> List[Tuple[str, str]]:
    """Returns the rows of a reading, each with its name and its text: the text, then the ways, of a degree at most three.

    In a way of a degree, each of the two parts takes something; only the search may skip nothing.
    """
    letters, text = letters_of(reading), as_text(reading.text)
    if not reading.loops:
        bar, last = bar_of(reading), reading.ways[0][-1]
        ways = [[Step(last.place), *way] for way in reading.ways]
        return [("text", _row(text[-1] + text))] + [(f"way {at}", _row(text[-1] + text, it, letters, bar)) for at, it in
                                                    enumerate(ways, 1)]
    copies = 4 if len(text) == 1 else 3
    most = copies if reading.loops[0] is None else copies - 1
    before, over, behind = (list(it) for it in reading.ways)
    found = [("text", _row(text * copies))]
    for at in range(1, most + 1):
        if at in (1, 2, most):
            found += [("...", "")] if at == most > 3 else []
            way = before * (copies - at) + over + behind * (at - 1)
            found.append((f"way {at}", _row(text * copies, way, letters)))
    return found


def _row(text: str, way: Sequence[Step] = (), letters: Optional[Letters] = None, bar: Optional[Span] = None) -> str:
    """A row: the characters of the text or, with a way, the letters of what takes them, with bars before new rounds."""
    parts = []
    for at, character in enumerate(map(_shown, text)):
        step = way[at] if way else None
        shown = character if step is None else DOT if step.place is None else (letters or {})[step.place]
        parts.append(("|" if step is not None and at and _begins(step, bar) else " ") + shown)
        parts.append(" " * (_widths(character) - _widths(shown)))
    return "".join(parts)[1:].rstrip()


def why_words(finding: Finding) -> str:
    """Returns the sentence that says why a finding is slow, from its readings; "" if there are none."""
    readings = finding.why.readings if finding.why else ()
    if not readings:
        return ""
    if not readings[0].loops:
        return f"{_copied(readings[0].text)} can be read in two ways, so {_factor(finding, readings[0])}"
    pattern = as_text(finding.pattern)
    spans = list(dict.fromkeys(it for reading in readings for it in reading.loops if it is not None))
    loops = [visible(pattern[start:end])[:60] for start, end in sorted(spans)]
    is_search = any(None in it.loops for it in readings)
    text = (drawn(finding) or readings[-1]).text
    taken = f"is shared out between {listed(loops)}" if len(loops) > 1 else f"is taken by {listed(loops) or 'the pattern'}"
    others = sum(None not in it.loops for it in readings) - 1
    more = f" ({counted(others, 'more such text')})" if others > 0 else ""
    letters = set(as_text(text))
    run = RUNS.get("".join(letters)) or _copied(text[:1] if len(letters) == 1 else text)
    return f"a run of {run} {taken}" + (", from each place at which the search may begin" if is_search else "") + more


def _copied(text: Text) -> str:
    """A text in quotes, cut if it is long."""
    shown = quoted(text)
    return shown if len(shown) <= 60 else shown[:60] + ".."


def _factor(finding: Finding, reading: Reading) -> str:
    """How the work of an exponential pattern grows with the text that is read in two ways."""
    size, factor = len(reading.text), finding.growth.factor if finding.growth else None
    every = f"every {counted(size, 'character')} more" if size > 1 else "each character more"
    if factor is None or factor < 1.05:
        return f"{every} at least double{'' if size > 1 else 's'} the work"
    near = round(factor)
    words = {2: "twice", 3: "three times", 4: "four times"}.get(near, f"{near:,} times")
    times = words if abs(factor - near) < 0.1 or factor > 10 else f"{factor:.1f} times"
    return f"{every} make{'' if size > 1 else 's'} {times} the work"


def legend(reading: Reading, pattern: Text) -> str:
    """Returns what the bars or dots of a reading mean; "" if it has none."""
    bar = bar_of(reading) if not reading.loops else None
    if bar is not None:
        return f"a bar is a new round of {visible(as_text(pattern[bar[0]:bar[1]]))[:60]}"
    return "a dot is a character that the search skips" if any(it is None for it in reading.loops) else ""


# ---- the source

def cells(text: str) -> List[str]:
    """Returns the text to print for each character of a source line; one that can't be seen is UNSEEN."""
    found = [" " * TAB if it == "\t" else it if is_seen(it) else UNSEEN for it in text]
    for at in SERVER_COMMAND.finditer("".join(it if len(it) == 1 else " " for it in found)):
        found[at.start() + 1] = UNSEEN
    return found


def marks(printed: Sequence[str], signs: Dict[int, str]) -> str:
    """Returns the line below a source line that has these signs below its characters."""
    row = [signs.get(at, " ").ljust(_widths(it), "~" if signs.get(at) == "~" else " ")[:_widths(it)] for at, it in
           enumerate(printed)]
    return "".join(row).rstrip()


def line_starts(finding: Finding) -> Dict[int, int]:
    """Returns the offsets in the source at which the lines of a finding begin; none if its literals aren't found in them."""
    site = finding.site
    if site is None or not site.literals or not finding.lines:
        return {}
    texts = dict(finding.lines)
    for width in (1, 2):
        starts, at = {}, site.literals[0].start - finding.place.column + 1
        for number in range(finding.place.line, finding.place.line + len(texts)):
            starts[number] = at
            at += len(texts.get(number, "")) + width
        if all(_is_there(it.text, it.start, starts, texts) for it in site.literals):
            return starts
    return {}


def _is_there(literal: str, start: int, starts: Dict[int, int], texts: Dict[int, str]) -> bool:
    """Whether a literal begins at its offset; one that lies behind the lines that are shown may be anywhere."""
    number = max((it for it in starts if starts[it] <= start), default=0)
    end = starts.get(number, 0) + len(texts.get(number, ""))
    first = literal.splitlines()[0] if literal else ""
    is_behind = start > end and number == max(starts, default=0)
    return number in texts and (is_behind or texts[number].startswith(first, start - starts[number]))


def signs_of(finding: Finding, letters: Letters, rest: str = "~") -> Dict[int, Dict[int, str]]:
    """Returns the signs below each line of the source, by the positions in it: letters, and the rest of each part.

    That is shown by `rest` or, if it is "", by the letter too.
    """
    found: Dict[int, Dict[int, str]] = {}
    starts, texts = line_starts(finding), dict(finding.lines)
    offsets = finding.site.offsets if finding.site else ()
    for at, sign in _signs(finding, letters, rest).items():
        if at < len(offsets):
            number = max((it for it in starts if starts[it] <= offsets[at]), default=0)
            if number in texts and offsets[at] - starts[number] < len(texts[number]):
                found.setdefault(number, {})[offsets[at] - starts[number]] = sign
    return found


def _signs(finding: Finding, letters: Letters, rest: str = "~") -> Dict[int, str]:
    """The signs below the characters of the pattern; a part of one character has its quantifier marked too."""
    pattern = as_text(finding.pattern)
    signs: Dict[int, str] = {}
    for (start, end), letter in letters.items():
        end += end - start == 1 and pattern[end:end + 1] in ("*", "+", "?", "{")
        signs.update({at: rest or letter for at in range(start + 1, end)})
        signs[start] = letter
    return signs


def source_lines(finding: Finding, letters: Letters, paint: Painter) -> Iterator[str]:
    """Yields the source lines of a finding with signs below them; if the pattern isn't in them, also the pattern itself."""
    signs = signs_of(finding, letters)
    wanted = sorted({*[number for number, _ in finding.lines][:MOST_LINES - len(signs)], *signs})[:MOST_LINES]
    size = len(str(wanted[-1])) if wanted else 1
    last = None
    for number, text in finding.lines:
        if number not in wanted:
            continue
        if last is not None and number > last + 1:
            yield paint("dim", f"{'':>{size}} | ..")
        printed, last = cells(text.rstrip()), number
        yield paint("dim", f"{number:>{size}} | ") + "".join(printed)
        if number in signs:
            yield paint("dim", f"{'':>{size}} | ") + paint("mark", marks(printed, signs[number]))
    left = len(finding.lines) - len(wanted)
    if left > 0:
        yield paint("dim", f"{'':>{size}} | .. {counted(left, 'line')} more")
    if finding.site is not None and not signs and (letters or not finding.is_own or not finding.lines):
        yield from _pattern_lines(finding, letters, paint)


def _pattern_lines(finding: Finding, letters: Letters, paint: Painter) -> Iterator[str]:
    """Yields the pattern, with signs below it."""
    pattern = as_text(finding.pattern)
    printed = [visible(it) for it in pattern[:MOST_PATTERN]]
    yield paint("dim", "pattern: ") + line("".join(printed)) + (" .." if len(pattern) > MOST_PATTERN else "")
    signs = {at: it for at, it in _signs(finding, letters).items() if at < MOST_PATTERN}
    if signs:
        yield " " * len("pattern: ") + paint("mark", marks(printed, signs))


# ---- findings

def head(finding: Finding, words: str, paint: Painter) -> str:
    """Returns the line that names an entry: its place, the code of its rule, and these words."""
    entry = finding.entry
    at = f":{entry.place.line}:{entry.place.column}" if entry.place else ""
    level = "dim" if finding.state != NEW else "error" if class_of(finding) == "exponential" else "warning"
    return f"{paint('place', line(entry.path) + at)}: {paint(level, rule_of(finding) + ' ' + words)}"


def class_of(finding: Finding) -> str:
    """Returns the class of a finding as counts name it, such as "cubic"."""
    return class_word(finding.verdict).split(" (")[0] if finding.verdict is not None else "seen to hang"


def body_lines(finding: Finding, paint: Painter) -> Iterator[str]:
    """Yields what is said of a finding below its first line."""
    reading = drawn(finding)
    letters = letters_of(reading)
    yield from (f"  {it}" for it in source_lines(finding, letters, paint))
    for name, text in _details(finding):
        yield f"  {paint('dim', f'{name}:'.ljust(5))} {paint('good', text) if name in ('fix', 'better') else text}"
        if name == "why" and reading is not None:
            note = legend(reading, finding.pattern)
            said = {"way 1": paint("dim", f"     {note}")} if note else {}
            yield from (f"          {row:<7} {taken}{said.get(row, '')}".rstrip() for row, taken in rows(reading))


def _details(finding: Finding) -> Iterator[Tuple[str, str]]:
    """Yields the lines below the source of a finding, each with its name."""
    site, why = finding.site, why_words(finding)
    if site is not None and finding.known == ELSEWHERE or finding.seen is not None:
        held = [f"{visible(it.name)} ({visible(it.path)}:{it.line})" for it in (site.holders if site else ())]
        yield from [("from", ", ".join(held))] if held else []
    yield from (("note", visible(it)) for it in (site.said if site else ()))
    if finding.reason:
        yield "note", visible(finding.reason)
    if finding.uses is not None and finding.uses.uses and not finding.uses.lost and finding.entry.call == "compile":
        yield "used", "by " + listed([use_words(it) for it in finding.uses.uses], 3)
    if why:
        yield "why", why
    elif finding.growth is not None and finding.verdict is not None:
        yield "why", growth_words(finding.verdict)
    code = try_line(finding)
    if code:
        yield "try", f"{code}  {CTRL_C}"
    for offer in finding.offers:
        yield offer.kind, f"{visible(offer.literal)}    {offer_words(offer)}"


STATES = {
    UNUSED: "not as used", IGNORED: "ignored by a noqa comment", ACCEPTED: "accepted", KNOWN: "there before this change",
}


def other_words(finding: Finding) -> str:
    """Returns what is said in one line of an entry that doesn't fail."""
    if finding.state not in STATES:
        return outcome(finding)
    uses = finding.uses.uses if finding.uses is not None else ()
    said = visible(finding.reason) if finding.state == ACCEPTED else listed([use_words(it) for it in uses], 3) if (
        finding.state == UNUSED) else ""
    return f"{outcome(finding)}; {STATES[finding.state]}" + (f": {said}" if said else "")


def is_shown(finding: Finding) -> bool:
    """Returns whether an entry is shown as a finding."""
    return finding.state in (NEW, WARNED)


def others(findings: Sequence[Finding], options: Options) -> List[Finding]:
    """Returns the entries that aren't findings and are named: with --all every one, with --strict those that fail."""
    if options.all:
        return [it for it in findings if not is_shown(it)]
    return [it for it in findings if it.fails_strictly(options.max_degree)] if options.strict else []


def worst_first(findings: Sequence[Finding]) -> List[Finding]:
    """Returns the findings among the entries, the worst first, and of equal ones the first."""
    return sorted(filter(is_shown, findings), key=lambda it: -it.rank())


# ---- the last lines

def counts(findings: Sequence[Finding]) -> List[str]:
    """Returns the numbers of findings by class, the worst first, as "1 exponential"."""
    found: Dict[str, int] = {}
    for it in worst_first(findings):
        found[class_of(it)] = found.get(class_of(it), 0) + 1
    return [f"{number:,} {name}" for name, number in found.items()]


def result(findings: Sequence[Finding]) -> str:
    """Returns the line that counts the findings, and how many can be fixed."""
    shown = [it for it in worst_first(findings) if it.state == NEW]
    warned = [it for it in findings if it.state == WARNED]
    warnings = f"{counted(len(warned), 'warning')}: {', '.join(counts(warned))}." if warned else ""
    if not shown:
        return f"no findings, {warnings}" if warned else "no findings"
    fixed = sum(any(offer.kind == "fix" for offer in it.offers) for it in shown)
    files = counted(len({it.entry.path for it in shown}), "file")
    one = "It" if len(shown) == 1 else "Both" if len(shown) == 2 else "All"
    which = one if fixed == len(shown) else f"{fixed:,} of them"
    more = f" {which} can be fixed: rlt fix" if fixed else " rlt explain fixing shows how such patterns are rewritten"
    said = f"{counted(len(shown), 'finding')} in {files}: {', '.join(counts(shown))}.{more}"
    return f"{said}; {warnings}" if warned else said


def facts(findings: Sequence[Finding], summary: Summary, options: Options) -> List[str]:
    """Returns the lines that each layout shows: what was hidden, not judged, not looked at and narrowed, and what is late."""
    lines = _hidden(findings, options) + _not_judged(findings, options) + _not_looked(summary.not_looked, options)
    lines[:0] = [f"{visible(path)}:{at}: {accepts(why, options)}" for path, at, why in summary.added_accepts]
    sources: Dict[str, List[str]] = {}
    below = sum(it.verdict is not None and it.state == OTHER and it.verdict.is_finding(Options.max_degree) for it in findings)
    for it in summary.narrowed or options.narrowed:
        hides = below if it.what.startswith("max-degree") else it.hides
        sources.setdefault(it.source, []).append(it.what + (f" hides {hides:,}" if hides else ""))
    lines += [f"configuration: {visible(name)} ({visible(', '.join(said))})" for name, said in sources.items()]
    lines += [visible(it) for it in dict.fromkeys((*options.notes, *summary.notes))]
    if options.strict or options.all:
        lines += [f"{visible(path)}:{number}: this noqa comment hides nothing" for path, number in summary.unused_ignores]
    fails = summary.not_looked or summary.unused_ignores or any(it.fails_strictly(options.max_degree) for it in findings)
    if options.strict and fails:
        lines.append("with --strict, what isn't judged or looked at fails too")
    if summary.late:
        lines.append(f"time ran out after {options.seconds:,} seconds, so not all was judged: --seconds N gives more")
    return lines + unshown(summary)


def unshown(summary: Summary) -> List[str]:
    """Returns the line on the entries for which no time was left."""
    left = summary.clock.left
    return [f"time ran out before {counted(left, 'entry', 'entries')} could be shown: --seconds N gives more"] if left else []


def accepts(reason: str, options: Options) -> str:
    """Returns what is said of an accept that the change adds."""
    how = "wants to accept a finding, which doesn't count before it is merged" if options.locked else "accepts a finding"
    return f"this change {how}: {visible(reason) or 'no reason'}"


def _hidden(findings: Sequence[Finding], options: Options) -> List[str]:
    """The line that counts findings that are hidden."""
    names = {ACCEPTED: f"accepted by {visible(options.accepted)}", IGNORED: "ignored by noqa comments",
             KNOWN: f"in {visible(options.baseline_commit)} already", UNUSED: "not as used"}
    numbers = {state: sum(it.state == state for it in findings) for state in names}
    parts = [f"{numbers[state]:,} {name}" for state, name in names.items() if numbers[state]]
    return [f"hidden: {', '.join(parts)}{_all_names(options, sum(numbers.values()))}"] if parts else []


def _all_names(options: Options, number: int) -> str:
    """The hint at --all, which isn't needed with it."""
    return "" if options.all or options.word != "check" else f"; rlt check --all names {'it' if number == 1 else 'them'}"


def _not_judged(findings: Sequence[Finding], options: Options) -> List[str]:
    """The line that counts what isn't decided or judged, by causes."""
    found: Dict[str, int] = {}
    for it in findings:
        if it.fails_strictly(options.max_degree):
            name = it.verdict.limit or "" if it.verdict is not None else it.entry.cause or it.entry.kind
            found[name] = found.get(name, 0) + 1
    total = sum(found.values())
    causes = ", ".join(visible(it if len(found) == 1 else f"{count:,} {it}") for it, count in
                       sorted(found.items(), key=lambda it: (-it[1], it[0])))
    named = _all_names(options, total) if not options.strict else ""
    return [f"not judged: {counted(total, 'pattern')} ({causes}){named}"] if found else []


def _not_looked(lost: Sequence[NotLooked], options: Options) -> List[str]:
    """The lines on what wasn't looked at: each with --strict and --all, otherwise the first ones in one line."""
    if options.strict or options.all:
        return [f"not looked at: {_lost(it)}" for it in lost]
    total = sum(it.count for it in lost)
    named = "; ".join(map(_lost, lost[:MOST_NAMED])) + ("; .." if len(lost) > MOST_NAMED else "")
    return [f"not looked at: {total:,} ({named})"] if lost else []


def _lost(lost: NotLooked) -> str:
    """What wasn't looked at, and why."""
    more = f" and {lost.count - 1:,} more" if lost.count > 1 else ""
    return f"{visible(lost.path)}{more}: {visible(CAUSES.get(lost.why, lost.why))}"


def took(summary: Summary) -> str:
    """Returns the last line: how much was judged, and in which time."""
    return f"{counted(summary.patterns, 'pattern')} in {counted(summary.files, 'file')}, {summary.seconds:.1f} s"


def lines(findings: Sequence[Finding], summary: Summary, options: Options) -> Iterator[str]:
    """Yields the lines for a terminal. Colours are used if `options.color` is "always"."""
    paint = painter(options)
    shown = worst_first(findings)
    for at, it in enumerate(summary.clock.within(shown)):
        is_whole, words = at < options.most, danger(it, summary.steps_a_second)
        yield head(it, words + ("; a warning" if is_whole and it.state == WARNED else ""), paint)
        yield from [*body_lines(it, paint), ""] if is_whole else []
    rest = others(findings, options)
    yield from (head(it, other_words(it), paint) for it in summary.clock.within(rest))
    if rest or len(shown) > options.most:
        yield ""
    if len(shown) > options.most:
        yield f"{counted(len(shown) - options.most, 'finding')} in one line each: --most N shows N in full"
    if shown or not options.quiet:
        yield result(findings)
    yield from map(line, facts(findings, summary, options))
    if not options.quiet:
        yield took(summary)
