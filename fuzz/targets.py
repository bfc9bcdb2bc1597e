"""The targets: each makes a case from chance, gives it to the program or to a tool, and judges what comes.

A target is a function that takes a `Runner` and a `Chance`, and the bytes of a kept file, or None for a case of its own. It
raises `Wrong` if what comes isn't what has to come. Its docstring says what has to come.
"""
from __future__ import annotations

import functools
import importlib
import json
import os
import string
from pathlib import Path
from typing import Any, Callable, Dict, List, Optional, Tuple, Type

from chance import NUMBERS, STRANGE, Chance, corpus
from layouts import COUNTS, same_in_all, whole
from hostile import forks
from hostile.watch import dangers
from program import MEGABYTES, Ran, Runner, Wrong, alike
from questions import asks

TOP = Path(__file__).resolve().parent.parent
MODES = ("fullmatch", "match", "search")
CALLS = ("compile", "match", "search", "fullmatch", "findall", "finditer", "split", "sub", "subn")
FINDING, FAILS = 1, 1
MIRRORED = {"equal": "equal", "included": "includes", "includes": "included", "disjoint": "disjoint",
            "overlapping": "overlapping"}
WORDS: List[List[str]] = [
    ["check", "--from", "report.json", "--all"], ["check", "--from", "report.json", "--format", "github", "--all"],
    ["check", "--from", "report.json", "--format", "sarif"], ["check", "--from", "report.json", "--format", "html"],
    ["confirm", "--from", "report.json", "--longest", "300"], ["fix", "--from", "report.json", "--diff"],
    ["check", "--config", "relint.toml", "source.py"], ["check", "--accepted", "accepted.json", "source.py"],
    ["accept", "--accepted", "accepted.json", "--prune", "source.py"], ["check", "--all", "notebook.ipynb"]]
NOTE_TOKENS = [it.encode() for it in (
    "made", "left out", "re", "regex", "\t", "\n", "s", "b", "00", "ff", "2f", "match", "-1", "9" * 30)]
SOURCE_TOKENS = [it.encode() for it in (
    "import re\n", "from re import compile as c\n", "re.compile(", "re.match(", "c(", "re.sub(", ")", "r'", "rb'", "f'", "'''",
    '"""', ", re.I", ", flags=re.X | re.M", "(", "[", "{", "#", "\\\n", "def f():\n", "    ", "lambda: ", "pattern=", "*a",
    ";",
    "# -*- coding: latin-1 -*-\n", "# coding: utf-8\n", "as", "\\N{DIGIT ONE}", "\\x", "\\u00e9", "\\777", *STRANGE)]
JSON_TOKENS = [it.encode() for it in (
    "null", "true", "NaN", "1e999", "-0", "[", "]", "{", "}", ",", ":", '"', '"\\ud800"', '"\\u0000"', '"degree"', '"path"',
    '"kind"',
    '"entries":[', "[" * 5000, '{"a":' * 3000, "[]", "{}", "9" * 5000, '"version":3', '"line":-1', '"over"')]
TOML_TOKENS = [it.encode() for it in (
    "compile-as", "max-degree", "max-pairs", "format", "report", "=", " = ", '"match"', "'brief'", '"sarif"', "[table]",
    "[[a]]",
    "true", "inf", "nan", "1979-05-27", "0b1", "1_000", '"""', "'''", "{a = 1}", "[1, 2]", "# note\n", "\\u00e9", "a.b",
    '"a"', "\n")]


def words(runner: Runner, chance: Chance, kept: Optional[bytes]) -> None:
    """Words of the command line: each run ends as `Runner.run` demands, and answers that go together agree.

    The subcommands are given options that are right or not. The words of a kept file are its lines; they are only run.
    """
    if kept is not None:
        runner.run(kept.decode("utf-8").split("\n"))
        return
    pattern, mode = chance.pattern(), chance.pick(MODES)
    chance.pick([_class, _class, _cost, _compare, _any_words])(runner, chance, pattern, mode)


def _class(runner: Runner, chance: Chance, pattern: str, mode: str) -> None:
    """Checks that `class` has the status of its answer, and that a certificate that `prove` gives is of the same class.

    If the pattern is refused, both have to refuse it alike. Raises Wrong.
    """
    most = chance.below(4)
    ran = runner.run(["class", "--mode", mode, "--max-degree", str(most), "--", pattern])
    proved = runner.run(["prove", "--mode=" + mode, "--", pattern])
    if ran.status == 2:
        alike(ran, proved, "class and prove refuse differently")
        return
    first = ran.text().split("\n")[0]
    degree = int(first[7:]) if first.startswith("degree ") else -1
    ran.need(ran.status == int(first == "exponential" or degree > most), "the status isn't that of " + first)
    if proved.out.startswith(b"{"):
        made = whole(proved)
        kind = made["kind"] if made["kind"] != "degree" else "degree %d" % made["degree"]
        proved.need(kind == first, "class says " + first)


def _cost(runner: Runner, chance: Chance, pattern: str, mode: str) -> None:
    """Checks that `cost` answers the same to words written in two ways. Raises Wrong.

    With status 0, the answer has to begin with "steps" or "undecided".
    """
    text = "".join(chance.some(string.ascii_letters[:3] + "01 é\n", 12))
    ran = runner.run(["cost", "--mode", mode, "--", pattern, text])
    other = runner.run(["cost", "--mode=" + mode, "--max-degree=0", "--", pattern, text])
    alike(ran, other, "the same words, written otherwise")
    if ran.status == 0:
        first = ran.text().split(" ")
        ran.need(first[0] in ("steps", "undecided"), "this is no answer of cost")


def _compare(runner: Runner, chance: Chance, pattern: str, mode: str) -> None:
    """Checks that `compare` gives the mirrored answer if two patterns are exchanged, and the status of its answer.

    Nothing is checked if neither answer is one of MIRRORED. Raises Wrong.
    """
    near = chance.changed(pattern.encode("utf-8"), [it.encode("utf-8") for it in STRANGE])
    other = chance.pattern() if chance.one(2) else near.decode("utf-8", "replace").replace("\0", "0")
    options = ["compare", "--mode", mode, "--"]
    one, two = runner.run([*options, pattern, other]), runner.run([*options, other, pattern])
    one_word, two_word = one.text().split("\n")[0], two.text().split("\n")[0]
    if one_word in MIRRORED or two_word in MIRRORED:
        two.need(MIRRORED.get(one_word) == two_word, "the other way round it is " + one_word)
        one.need(one.status == int(one_word != "equal"), "the status isn't that of " + one_word)


def _any_words(runner: Runner, chance: Chance, pattern: str, _: str) -> None:
    """Checks that words which are mostly no valid call are answered the same twice. Raises Wrong."""
    action = chance.pick(["class", "cost", "compare", "prove", "verify", "sample", "check", "chec", ""])
    parts = ["--mode", "match", "--mode=search", "--max-pairs=" + chance.pick(NUMBERS), "--report", "2", "--", "-", "", "-x",
             "--settings", "none", "--baseline=none", "--format=json", pattern, "a" * chance.below(30_000), "none.py"]
    given = [action, *chance.some(parts, 5)]
    alike(runner.run(given), runner.run(given), "a second run")


def _made_source(chance: Chance) -> bytes:
    """Returns a random source with calls of `re`, mostly right ones."""
    lines = [chance.pick(["import re", "import re as r", "from re import compile as c, match", "import os, re"])]
    for _ in range(1 + chance.below(5)):
        name = chance.pick(["re.", "r.", ""]) + chance.pick(CALLS)
        quote = chance.pick(["'", '"', "'''", '"""'])
        prefix = chance.pick(["r", "r", "r", "", "b", "rb", "f", "u"])
        literal = prefix + quote + chance.pattern(2) + quote
        more = chance.pick(["", ", s", ", re.I", ", flags=re.X", ", s, re.M | re.S", ", x)(", " 'b'"])
        lines.append(chance.pick(["", "x = ", "    ", "f(", "# "]) + "%s(%s%s)" % (name, literal, more))
    return "\n".join(lines + [""]).encode("utf-8")


def sources(runner: Runner, chance: Chance, kept: Optional[bytes]) -> None:
    """Sources: the four layouts say the same, and the Python tools read what the program read."""
    data = kept
    if data is None:
        data = _made_source(chance) if chance.one(2) else chance.pick(corpus("sources"))
        data = data if chance.one(3) else chance.changed(data, SOURCE_TOKENS)
    name = runner.put("source.py", data)
    most = chance.below(4)
    report = same_in_all(runner, ["--max-degree", str(most), "--mode", chance.pick(MODES), "--", name], most)
    _read_by_tools(runner, data, report)


def _read_by_tools(runner: Runner, data: bytes, report: Dict[str, Any]) -> None:
    """Checks that the package's reader of reports reads the report, and its reader of sources the source.

    A source with a judged pattern has to be readable. Raises Wrong.
    """
    engine, source = importlib.import_module("relint.engine.engine"), importlib.import_module("relint.code.source")
    if "version" not in report:
        return
    read = engine.read_report([json.dumps(report).encode("utf-8")])
    if [it.kind for it in read.entries] != [it["kind"] for it in report["entries"]]:
        raise Wrong("the reader of reports gives other kinds: %r" % [it.kind for it in read.entries])
    try:
        unit = source.Unit("source.py", data)
    except source.SourceError:
        if any(it["kind"] in ("degree", "exponential") for it in report["entries"]):
            raise Wrong("the reader of sources refuses what relint judged") from None
        return
    for it in read.entries:
        if it.place and it.call:
            unit.site(it.place, it.call)


def _made_settings(chance: Chance) -> bytes:
    """Returns a random settings file of up to three lines, with values that are right or not."""
    lines = ["compile-as = '%s'" % chance.pick(MODES), "max-degree = %s" % chance.pick(NUMBERS[:14]),
             "max-pairs = %s" % chance.pick(NUMBERS[:14]), 'format = "%s"' % chance.pick(["text", "json", "x"]),
             "report = %d" % chance.below(4)]
    return "\n".join([*chance.some(lines, 3), ""]).encode("utf-8")


def settings(runner: Runner, chance: Chance, kept: Optional[bytes]) -> None:
    """Settings: a file does what the same options do, or is refused; and what a reader of TOML refuses is refused."""
    data = kept
    if data is None:
        data = _made_settings(chance) if chance.one(2) else chance.pick(corpus("settings"))
        data = data if chance.one(3) else chance.changed(data, TOML_TOKENS)
    runner.put("settings.toml", data)
    runner.put("source.py", b"import re\nre.compile(r'(a|a)*b')\nre.compile(r'a*a*b')\nre.search(r'[0-9]{30}', s)\n")
    ran = runner.run(["check", "--settings", "settings.toml", "source.py"])
    options = _options_of(data)
    if options is None:
        ran.need(ran.status == 2, "the settings hold nothing that is right, and aren't refused")
    elif options is not UNKNOWN:
        alike(runner.run(["check", *options, "source.py"]), ran, "the same options on the command line")


UNKNOWN = ["?"]


def _options_of(data: bytes) -> Optional[List[str]]:
    """Returns the options that say what a settings file says.

    Returns None if it isn't a valid settings file, and UNKNOWN if this Python has no reader of TOML.
    """
    try:
        reader = importlib.import_module("tomllib")
    except ImportError:
        return UNKNOWN
    try:
        # (relint passes over a byte order mark in front, as many readers of TOML do; Python's doesn't)
        table = reader.loads(data.decode("utf-8-sig"))
    except (ValueError, RecursionError):
        return None
    kinds: Dict[str, Tuple[str, Callable[[Any], bool]]] = {
        "compile-as": ("--mode", lambda it: it in MODES),
        "format": ("--format", lambda it: it in ("text", "brief", "json", "sarif")),
        "max-degree": ("--max-degree", lambda it: type(it) is int and 0 <= it <= 999_999),
        "max-pairs": ("--max-pairs", lambda it: type(it) is int and 1 <= it <= 1000),
        "report": ("--report", lambda it: type(it) is int and it in (1, 2))}
    if any(key not in kinds or not kinds[key][1](value) for key, value in table.items()):
        return None
    return ["%s=%s" % (kinds[key][0], value) for key, value in table.items()]


def baselines(runner: Runner, chance: Chance, kept: Optional[bytes]) -> None:
    """Baselines: as many entries are hidden as the baseline has to hide, as `_hidden` counts them.

    An entry of the baseline hides at most one entry, one that has the same `_key`.
    """
    runner.put("source.py", _made_source(chance))
    whole_report = runner.run(["check", "--format", "json", "source.py"])
    if kept is not None:
        data = kept
    elif chance.one(2):
        data = chance.changed(whole_report.out, JSON_TOKENS) if chance.one(2) else chance.changed_json(whole_report.out)
    else:
        entries = chance.some(whole(whole_report)["entries"] or [{"path": "source.py", "kind": "exponential"}], 6)
        data = json.dumps({"entries": entries, "findings": 0, "refused": 0, "undecided": 0, "version": 2}).encode()
    runner.put("baseline.json", data)
    ran = runner.run(["check", "--format", "brief", "--baseline", "baseline.json", "source.py"])
    if ran.status == 2:
        return
    found = COUNTS.search(ran.text())
    ran.need(found is not None and found.group(5) is not None, "the last line doesn't say how many are hidden")
    if found is not None:
        shown, hidden = int(found.group(1)), int(found.group(5))
        entries = whole(whole_report)["entries"]
        ran.need(shown + hidden == len(entries), "shown and hidden aren't the %d entries" % len(entries))
        known = _known(data)
        if known is not None:
            ran.need(hidden == _hidden(entries, known), "%d entries have to be hidden" % _hidden(entries, known))


def _key(entry: Dict[str, Any]) -> str:
    """Returns what makes two entries the same for a baseline: the path, the call, the kind, and the degree, limit or cause."""
    return json.dumps([entry.get(it) for it in ("path", "call", "kind", "degree", "limit", "cause")])


def _known(data: bytes) -> Optional[List[str]]:
    """Returns the keys of the entries of a baseline.

    Returns None if it isn't strict JSON with such entries: then relint and Python may read it differently.
    """
    try:
        found = json.loads(data.decode("utf-8"), parse_constant=_no_constant, object_pairs_hook=_no_repeats)
        return [_key(it) for it in found["entries"]]
    except (ValueError, RecursionError, TypeError, KeyError, AttributeError):
        return None


def _no_constant(text: str) -> Any:
    """Always raises ValueError; `json.loads` calls it for the constants NaN and Infinity, which strict JSON doesn't have."""
    raise ValueError(text)


def _no_repeats(pairs: List[Tuple[str, Any]]) -> Dict[str, Any]:
    """Returns the dict of these pairs. Raises ValueError if a key comes twice."""
    if len({key for key, _ in pairs}) != len(pairs):
        raise ValueError("a key is there twice")
    return dict(pairs)


def _hidden(entries: List[Dict[str, Any]], known: List[str]) -> int:
    """Returns how many of the entries a baseline with the keys `known` has to hide; each key hides at most one."""
    left = list(known)
    count = 0
    for it in entries:
        if _key(it) in left:
            left.remove(_key(it))
            count += 1
    return count


def certificates(runner: Runner, chance: Chance, kept: Optional[bytes]) -> None:
    """Certificates: what `prove` makes holds; a changed one, or a kept one, says the class that the pattern has if it holds.

    Nothing is checked if `prove` makes none for the pattern.
    """
    pattern, mode = chance.pattern(2), chance.pick(MODES)
    made = runner.run(["prove", "--mode", mode, "--", pattern])
    if made.status != 0 or not made.out.startswith(b"{"):
        return
    first = runner.run(["class", "--mode", mode, "--", pattern]).text().split("\n")[0]
    runner.put("certificate.json", made.out)
    verify = ["verify", "--mode", mode, "--", pattern, "certificate.json"]
    ran = runner.run(verify)
    ran.need(ran.status == 0 and ran.text() == "holds %s\n" % first, "what prove made doesn't hold as " + first)
    runner.put("certificate.json", kept if kept is not None else _changed_certificate(chance, made))
    changed = runner.run(verify)
    changed.need(changed.status in (0, FAILS, 2), "a status that verify doesn't have")
    if changed.status == 0:
        changed.need(changed.text() == "holds %s\n" % first, "a certificate holds for another class than " + first)
    elif changed.status == FAILS:
        changed.need(changed.text().startswith("fails"), "status 1 without the word")


def _changed_certificate(chance: Chance, made: Ran) -> bytes:
    """Returns the certificate that a run made, mostly with some of its bytes or one of its values changed."""
    kind = chance.below(3)
    if kind < 2:
        return chance.changed(made.out, JSON_TOKENS) if kind else chance.changed_json(made.out)
    table = whole(made)
    key = chance.pick(sorted(table))
    value = table[key]
    if isinstance(value, list) and value:
        value.insert(chance.below(len(value)), chance.pick(value))
        del value[chance.below(len(value))]
    elif isinstance(value, int):
        table[key] = value + chance.pick([-1, 1, 1000])
    return json.dumps(table, sort_keys=True, separators=(",", ":")).encode()


def reports(runner: Runner, chance: Chance, kept: Optional[bytes]) -> None:
    """Reports, for the package's reader: it takes one, or raises its own error of one line, and nothing else."""
    data = kept
    if data is None:
        data = _changed_report(chance)
    module = importlib.import_module("relint.engine.engine")
    try:
        report = module.read_report(chance.parts(data))
    except module.ReportError as error:
        if len(str(error).splitlines()) != 1:
            raise Wrong("the error isn't one line: %r" % str(error)) from None
        return
    except (Exception, RecursionError) as error:  # (whatever comes here is the finding)
        raise Wrong("the reader of reports raises %s: %s" % (type(error).__name__, str(error)[:200])) from error
    for entry in report.entries:
        _use(entry)


def _changed_report(chance: Chance) -> bytes:
    """Returns a random one of the reports that are kept, mostly with a random change."""
    data = chance.pick(corpus("reports"))
    return chance.changed(data, JSON_TOKENS) if chance.one(3) else chance.changed_json(data)


def tools(runner: Runner, chance: Chance, kept: Optional[bytes]) -> None:
    """Reports, configurations, accepted files and notebooks, for a random one of WORDS of rlt.

    It ends within a minute with a status from 0 to 5, and writes no traceback. It mustn't take more than MEGABYTES, and
    mustn't write what a terminal obeys to standard error, nor to standard output in a layout for people. RELINT is set in the
    environment of this process.
    """
    data = _changed_report(chance) if kept is None else kept
    for name in ("plain", "names", "refusals", "version-2"):
        runner.put(name + ".py", chance.pick(corpus("sources")))
    runner.put("source.py", chance.pick(corpus("sources")))
    runner.put("report.json", data)
    runner.put("relint.toml", _changed(chance, "configurations", TOML_TOKENS))
    runner.put("accepted.json", _changed(chance, "accepted", JSON_TOKENS))
    runner.put("notebook.ipynb", _changed(chance, "notebooks", JSON_TOKENS))
    given = chance.pick(WORDS)
    job = {"tool": "rlt", "words": given, "cwd": str(runner.folder), "seconds": 60, "megabytes": 3000}
    job.update({name: str(runner.folder / name) for name in ("out", "err", "given")})
    runner.put("given", b"")
    os.environ["RELINT"] = runner.program
    status, _, megabytes = forks.run([job], _loaded(), 1)[0]
    out, err = ((runner.folder / name).read_bytes() for name in ("out", "err"))
    ran = Ran(given, -1 if status is None else status, out, err, megabytes)
    ran.need(status is not None and 0 <= status <= 5, "a status that no page has (-1: no answer in a minute)")
    ran.need(b"Traceback" not in err, "a traceback")
    ran.need(megabytes <= MEGABYTES, "it takes %d MB" % megabytes)
    shown = b"" if "html" in given or "--diff" in given else out
    said = (shown + b"\n" + err).decode("utf-8", "surrogateescape")
    obeyed = dangers(said, not said.startswith("{"))
    ran.need(not obeyed, "it writes " + "; ".join(obeyed))


def _changed(chance: Chance, target: str, tokens: List[bytes]) -> bytes:
    """Returns one of the files that are kept for a target, mostly with changes."""
    data = chance.pick(corpus(target))
    return data if chance.one(8) else chance.changed(data, tokens)


def _ends(call: Callable[[], Any], errors: Tuple[Type[Exception], ...]) -> Any:
    """Returns what a reader of the package gives, or None if it refuses what it read, which is to be said in one line.

    Raises Wrong for any other error.
    """
    try:
        return call()
    except errors as error:
        if len(str(error).splitlines()) != 1 or dangers(str(error)):
            raise Wrong("the error isn't one line, or a terminal obeys it: %r" % str(error)) from None
        return None
    except (Exception, RecursionError) as error:  # (whatever comes here is the finding)
        raise Wrong("the reader raises %s: %s" % (type(error).__name__, str(error)[:200])) from error


def configurations(runner: Runner, chance: Chance, kept: Optional[bytes]) -> None:
    """Configurations of rlt: one is refused in one line, or nothing of it leads out of its folder or lifts a limit.

    What it narrows is said.
    """
    module = importlib.import_module("relint.options")
    data = _changed(chance, "configurations", TOML_TOKENS) if kept is None else kept
    name = chance.pick(["relint.toml", "relint.toml", "pyproject.toml"])
    runner.put(name, data)
    (runner.folder / "src").mkdir()
    (runner.folder / "link").symlink_to("/etc")
    here = os.getcwd()
    os.chdir(runner.folder)
    try:
        found = _ends(lambda: module.read_options([]), (module.OptionsError,))
    finally:
        os.chdir(here)
    if found is None:
        return
    top = os.path.realpath(runner.folder)
    paths = [os.path.realpath(os.path.join(top, it)) for it in (*found.paths, found.accepted, *found.takers)]
    if any(it != top and not it.startswith(top + os.sep) or ".git" in it.split(os.sep) for it in paths):
        raise Wrong("a path leads out of the folder: %r" % paths)
    if found.jobs > module.processors() or found.seconds > module.Options.seconds:
        raise Wrong("a limit is lifted: %d jobs, %d seconds" % (found.jobs, found.seconds))
    said = " ".join(it.what for it in found.narrowed)
    usual = module.Options()
    narrows = {"max-degree": found.max_degree > usual.max_degree, "max-pairs": found.max_pairs < usual.max_pairs,
               "exclude": bool(found.exclude), "compile-as": found.mode != usual.mode, "paths": top not in paths}
    silent = [it for it, is_narrow in narrows.items() if is_narrow and it not in said]
    if silent:
        raise Wrong("it narrows in silence: %s" % ", ".join(silent))


def accepted(_: Runner, chance: Chance, kept: Optional[bytes]) -> None:
    """Accepted files: one is refused in one line, or stays the same when it is written and read again."""
    module = importlib.import_module("relint.stages.accept")
    data = _changed(chance, "accepted", JSON_TOKENS) if kept is None else kept
    rows = _ends(lambda: module.read(data, "accepted.json"), (module.AcceptError,))
    if rows is not None:
        text = module.Accepted("accepted.json", rows).text().encode("ascii")
        again = _ends(lambda: module.read(text, "accepted.json"), (module.AcceptError,))
        if again is None or sorted(it.same() for it in again) != sorted(it.same() for it in rows):
            raise Wrong("what is written isn't what was read")


def notes(runner: Runner, chance: Chance, kept: Optional[bytes]) -> None:
    """Notes of a recorded program: those that are right are read, the others are counted, and nothing is raised."""
    module = importlib.import_module("relint.trials.record")
    data = _changed(chance, "notes", NOTE_TOKENS) if kept is None else kept
    (runner.folder / "notes").mkdir()
    runner.put("notes/1", data)
    recorded = _ends(lambda: module.read_notes(str(runner.folder / "notes")), ())
    lines = [it for it in data.split(b"\n") if it]
    if len(recorded.found) + recorded.left_out + recorded.wrong > len(lines):
        raise Wrong("more is counted than there is")
    for it in recorded.found:
        if not it.path or "\0" in it.path or not it.name.isidentifier() or len(it.pattern) > module.LONGEST:
            raise Wrong("a note that is wrong is taken: %r" % (it,))
        _ends(lambda: os.path.realpath(it.path), ())


def notebooks(_: Runner, chance: Chance, kept: Optional[bytes]) -> None:
    """Notebooks: one is refused in one line, or gives a text that Python parses, whose lines come from its cells."""
    places, source = importlib.import_module("relint.code.places"), importlib.import_module("relint.code.source")
    data = _changed(chance, "notebooks", JSON_TOKENS) if kept is None else kept
    book = _ends(lambda: places.notebook(data), (places.NotebookError,))
    if book is None:
        return
    unit = _ends(lambda: source.Unit("a.ipynb", book.text.encode("utf-8", "surrogatepass")), (source.SourceError,))
    if unit is not None and unit.is_parsed:
        takers = places.Takers(places.takers_of(places.own_rows()), True)
        folder = importlib.import_module("relint.code.fold").Folder
        sources = importlib.import_module("relint.code.fold").Sources
        for it in places.places_in(unit, takers, folder(sources(_nothing))):
            book.in_cell(it, "a.ipynb")


def _nothing(path: str) -> Any:
    """Always raises SourceError: no other file is there."""
    raise importlib.import_module("relint.code.source").SourceError("it isn't there")


@functools.lru_cache(maxsize=None)
def _loaded() -> Dict[str, Any]:
    """Returns the tools, loaded once for all cases, as `forks.run` takes them."""
    return forks.load(str(TOP / "python"))


def _use(entry: Any) -> None:
    """Does what stages do first with an entry. Raises Wrong if any of it fails."""
    try:
        hash(entry)
        if entry.verdict:
            entry.verdict.is_finding(2)
            if entry.verdict.family:
                entry.verdict.family.text(2)
    except Exception as error:  # (whatever comes here is the finding)
        raise Wrong("an entry that the reader took raises %s: %s" % (type(error).__name__, error)) from error


TARGETS: Dict[str, Callable[[Runner, Chance, Optional[bytes]], None]] = {
    "words": words, "sources": sources, "settings": settings, "baselines": baselines, "certificates": certificates,
    "reports": reports, "configurations": configurations, "accepted": accepted, "notes": notes, "notebooks": notebooks,
    "tools": tools, "asks": asks}
# How many of a hundred cases are of each target.
SHARES = {"words": 16, "sources": 16, "settings": 11, "baselines": 8, "certificates": 8, "reports": 11, "configurations": 6,
          "accepted": 5, "notes": 3, "notebooks": 3, "tools": 5, "asks": 8}
