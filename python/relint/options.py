"""The command line and the configuration of `rlt`: one table of options, from which parser, configuration and help are made.

The configuration is the table `tool.relint` of the nearest pyproject.toml, or the file relint.toml. Others may have written
it, so it can widen nothing: its paths lie below its folder, and times and jobs can only be lowered. What it narrows is noted.
"""
from __future__ import annotations

import importlib
import os
import re
import stat
from dataclasses import dataclass, field, replace
from typing import Any, Callable, Dict, Iterable, List, Mapping, NamedTuple, Optional, Sequence, Tuple

from .base.model import CALLS, MODES, Narrowed
from .base.safe import OpenError, is_below, read_named, visible

OWN_FILE, SHARED_FILE, ACCEPTED_FILE = "relint.toml", "pyproject.toml", "relint-accepted.json"
MOST_BYTES, MOST_NUMBER, MOST_PAIRS, MOST_DOTS = 1_048_576, 999_999, 1000, 1_000
GIT, HG = ".git", ".hg"
TOPS = (GIT, HG)
# (the time that a glob takes grows with its length)
MOST_OF_A_LIST = 50_000
# Folders of version control, which no path of a configuration leads into.
CONTROL = (".bzr", GIT, HG, ".svn")
FORMATS = ("terminal", "concise", "github", "gitlab", "sarif", "json", "html")
SERVERS = {"GITHUB_ACTIONS": "github", "GITLAB_CI": "gitlab"}
# Each word with its arguments, and what it does.
WORDS: Dict[str, Tuple[str, str]] = {
    "check": ("[PATH..]", "finds costly patterns, explains them and shows the fix (the usual word)"),
    "fix": ("[PATH..]", "writes the fixes that are proved to change nothing"),
    "accept": ("FILE:LINE --reason WORDS", "takes a finding into the accepted file"),
    "pattern": ("P", "says all about one pattern: classes, a text, a fix"),
    "compare": ("OLD NEW", "says both classes, and whether both find the same"),
    "explain": ("TOPIC", "shows a rule (RLT100), a cause (lookaround) or a page (fixing)"),
    "confirm": ("[PATH..]", "tries findings on this Python, and keeps its rate"),
    "record": ("-- COMMAND", "notes the patterns of a running program, and judges them"),
    "server": ("", "is a language server for editors"),
}
TREES = "check fix accept confirm"
JUDGED = TREES + " record"
SHOWN = "check record"


class OptionsError(Exception):
    """Raised if the words or the configuration can't be used; the message says why, `status` is the exit status."""

    def __init__(self, message: str, status: int = 2) -> None:
        super().__init__(message)
        self.status = status


@dataclass(frozen=True)
class Option:
    """A row of the table: an option, its value ("" for a switch), the words that take it, its group, and help.

    An option without help is shown in the line of the row before. `key` is its key in the configuration, and `field` its name
    in `Options`. A value is one of `choices`, a number in `limits`, or a text; with `many` it can be given several times.
    """

    name: str
    value: str
    words: str
    group: str
    help: str
    key: str = ""
    field: str = ""
    limits: Tuple[int, int] = (0, 0)
    choices: Tuple[str, ...] = ()
    many: bool = False
    short: str = ""

    @property
    def attribute(self) -> str:
        """The name of its field in `Options`."""
        return self.field or self.name.lstrip("-").replace("-", "_")

    @property
    def default(self) -> Any:
        """The value that holds if nothing sets it."""
        return getattr(Options, self.attribute, ())

    def wanted(self) -> str:
        """Returns words for the values that it takes."""
        if self.choices:
            return "one of " + ", ".join(self.choices)
        return "a number from {:,} to {:,}".format(*self.limits) if self.limits[1] else "a value that isn't empty"

    def read(self, text: str) -> Any:
        """Returns the value that a text gives. Raises OptionsError if it gives none."""
        number = int(text) if self.limits[1] and text.isascii() and text.isdigit() and len(text) < 8 else -1
        if self.limits[1] and self.limits[0] <= number <= self.limits[1]:
            return number
        if not self.limits[1] and (text in self.choices if self.choices else text and "\0" not in text):
            return text
        raise OptionsError(f"{self.name}: {self.wanted()} is wanted, not {text!r}{nearest(text, self.choices)}")

    def takes(self, value: Any) -> bool:
        """Returns whether the configuration may give it this value."""
        if self.many:
            is_list = isinstance(value, list) and all(isinstance(it, str) and it and "\0" not in it for it in value)
            return is_list and sum(map(len, value)) <= MOST_OF_A_LIST
        if not self.value:
            return isinstance(value, bool) or self.key == "wide" and isinstance(value, dict)
        try:
            return type(value) is (int if self.limits[1] else str) and self.read(str(value)) == value
        except OptionsError:
            return False


OPTIONS: Tuple[Option, ...] = (
    Option("--from", "REPORT", "check fix confirm", "files", "read JSON reports of relint or rlt in place of sources",
           field="reports", many=True),
    Option("--tracked", "", TREES, "files", "only the Python files that git tracks"),
    Option("--exclude", "GLOB", TREES, "files", "leave out what GLOB matches; look into build, .venv and the like",
           key="exclude", many=True),
    Option("--no-default-exclude", "", TREES, "files", ""),
    Option("--stdin-filename", "NAME", "check", "files", "the name of the source that - reads from standard input"),
    Option("--wide", "", TREES, "files", "also lexers, which are full of patterns; FILE lists more calls that take patterns",
           key="wide"),
    Option("--takers", "FILE", TREES, "files", "", key="takers", many=True),
    Option("--trials", "", SHOWN, "files", "try patterns that can't be judged on this Python"),
    Option("--below", "FOLDER", "record", "files", "only patterns that files below FOLDER make"),
    Option("--max-degree", "N", JUDGED + " pattern", "fails", "the highest degree that is no finding: 2 is quadratic, 3 cubic",
           key="max-degree", limits=(0, MOST_NUMBER)),
    Option("--warn-degree", "N", SHOWN, "fails", "show lower degrees above N too", key="warn-degree", limits=(0, MOST_NUMBER)),
    Option("--max-pairs", "N", JUDGED + " pattern compare", "fails",
           "how far a pattern is explored before it counts as undecided", key="max-pairs", limits=(1, MOST_PAIRS)),
    Option("--mode", "MODE", JUDGED, "fails", "what compile counts as where its uses aren't known", key="compile-as",
           choices=MODES),
    Option("--strict", "", SHOWN, "fails", "fail for what isn't judged or looked at too, and name it", key="strict"),
    Option("--baseline-commit", "REF", "check fix", "fails", "only what is new since the commit REF"),
    Option("--locked", "", "check", "fails", "with it: what the change itself accepts doesn't count"),
    Option("--accepted", "FILE", TREES, "fails", f"the accepted file, instead of {ACCEPTED_FILE}", key="accepted"),
    Option("--diff", "", "fix", "what", "show the fixes as a patch, and write nothing"),
    Option("--advice", "", "fix", "what", "take advice too, which changes what a group holds or which texts match"),
    Option("--reason", "WORDS", "accept", "what", "why the finding is acceptable"),
    Option("--all", "", "accept", "what", "accept all findings, for a start", field="accept_all"),
    Option("--prune", "", "accept", "what", "take out what is no longer found"),
    Option("--flags", "LETTERS", "pattern compare", "what", "the flags of the call, as in im"),
    Option("--bytes", "", "pattern compare", "what", "a pattern of bytes"),
    Option("--call", "CALL", "pattern compare", "what", "the function of re that takes it", choices=CALLS),
    Option("--over", "N", "confirm", "what", "the seconds that a match has to exceed", limits=(1, 600)),
    Option("--longest", "N", "confirm", "what", "the longest text to try", limits=(1, 10_000_000)),
    Option("--format", "FORMAT", SHOWN, "shows", "the layout: " + ", ".join(FORMATS), choices=FORMATS),
    Option("--format", "FORMAT", "pattern compare confirm", "shows", "the layout: terminal or json",
           choices=("terminal", "json")),
    Option("--write", "FORMAT=FILE", SHOWN, "shows", "write a layout to a file too; can be given again", many=True),
    Option("--all", "", SHOWN, "shows", "also name what isn't judged, accepted, unused or ignored"),
    Option("--most", "N", SHOWN, "shows", "how many findings are shown in full", limits=(0, MOST_NUMBER)),
    Option("--color", "COLOR", "check fix pattern compare confirm record", "shows", "always, never, or auto: on a terminal",
           choices=("always", "never", "auto")),
    Option("--quiet", "", TREES + " record", "shows", "only findings and what was left out", short="-q"),
    Option("--jobs", "N", JUDGED, "runs", "how many processes at a time (all processors)", key="jobs",
           limits=(1, MOST_NUMBER)),
    Option("--seconds", "N", JUDGED + " pattern compare", "runs", "how long the run may take in all", key="seconds",
           limits=(1, MOST_NUMBER)),
    Option("--config", "FILE", JUDGED + " server", "runs", "the configuration instead of the nearest, or none"),
    Option("--no-config", "", JUDGED + " server", "runs", ""),
)
# The key of the configuration that is no option.
PATHS = Option("paths", "PATH", TREES, "files", "", key="paths", many=True)
KEYS: Dict[str, Option] = {it.key: it for it in (PATHS, *OPTIONS) if it.key}


@dataclass(frozen=True)
class Options:
    """What the user asks for, by the command line, the configuration and the defaults.

    `paths` are relative to the current folder; `are_named` says that the command line names them, and ("-",) is a source on
    standard input, whose name is `stdin_filename`. `places` are those of `accept`, each a path, a line and a column or 0.
    `arguments` are the words of pattern, compare, explain and record. `folder` is where the configuration lies, or else the
    top of the repository, or the current folder; it is absolute, without links, and `exclude` is relative to it. `config` is
    the path of the configuration or "". `accepted` is the path of the accepted file; `accepted_named` says that it has to be
    there. `wide_table` is the table `wide` of the configuration. `narrowed` and
    `notes` are what the configuration narrows, and what else has to be said of it. `format` is never empty.
    """

    word: str = "check"
    paths: Tuple[str, ...] = (".",)
    are_named: bool = False
    places: Tuple[Tuple[str, int, int], ...] = ()
    arguments: Tuple[str, ...] = ()
    reports: Tuple[str, ...] = ()
    tracked: bool = False
    exclude: Tuple[str, ...] = ()
    no_default_exclude: bool = False
    stdin_filename: str = "stdin.py"
    wide: bool = False
    takers: Tuple[str, ...] = ()
    wide_table: Mapping[str, Any] = field(default_factory=dict)
    trials: bool = False
    below: str = ""
    max_degree: int = 2
    warn_degree: Optional[int] = None
    max_pairs: int = MOST_PAIRS
    mode: str = "search"
    strict: bool = False
    baseline_commit: str = ""
    locked: bool = False
    accepted: str = ACCEPTED_FILE
    accepted_named: bool = False
    diff: bool = False
    advice: bool = False
    reason: str = ""
    accept_all: bool = False
    prune: bool = False
    flags: str = ""
    bytes: bool = False
    call: str = "search"
    over: int = 1
    longest: int = 100_000
    format: str = "terminal"
    write: Tuple[Tuple[str, str], ...] = ()
    all: bool = False
    most: int = 100
    color: str = "auto"
    quiet: bool = False
    jobs: int = 1
    seconds: int = 600
    config: str = ""
    no_config: bool = False
    folder: str = "."
    narrowed: Tuple[Narrowed, ...] = ()
    notes: Tuple[str, ...] = ()

    def reads_input(self) -> bool:
        """Returns whether a source is read from standard input."""
        return self.word == "check" and self.paths == ("-",)


class Given(NamedTuple):
    """The words of a command line: the first one, the values of its options by their fields, and the other words."""

    word: str
    values: Mapping[str, Any]
    rest: Tuple[str, ...]


# Gives the bytes of a file, by its absolute path, in an earlier commit; None if it isn't there.
Reader = Callable[[str], Optional[bytes]]


def version() -> str:
    """Returns the version of the clone that this file is in, or else that of the installed package."""
    file = os.path.join(os.path.dirname(os.path.realpath(__file__)), "..", "..", "VERSION")
    try:
        with open(file, encoding="utf-8") as opened:
            return opened.read().strip()
    except OSError:
        metadata = importlib.import_module("importlib.metadata")
        try:
            return str(metadata.version("relint"))
        except metadata.PackageNotFoundError:
            return "of an unknown version"


def nearest(word: str, known: Iterable[str]) -> str:
    """Returns "; did you mean NAME?" for the known name that is nearest to the word, or "" if none is near."""
    # (what is needed only for a mistake isn't loaded before)
    found = importlib.import_module("difflib").get_close_matches(word[:100], list(known), 1)
    return f"; did you mean {visible(found[0])}?" if found else ""


def processors() -> int:
    """Returns how many processors this process may use; 1 if that isn't known."""
    return len(os.sched_getaffinity(0)) if hasattr(os, "sched_getaffinity") else os.cpu_count() or 1


def options_of(word: str) -> Dict[str, Option]:
    """Returns the options that a word takes, by their names; short names are among them."""
    own = [it for it in OPTIONS if word in it.words.split()]
    return {name: it for it in own for name in (it.name, it.short) if name}


def given_by(words: Sequence[str]) -> Given:
    """Returns what the words of a command line give. Raises OptionsError for the first word that is refused."""
    word = words[0] if words and words[0] in WORDS else "check"
    left = list(words[1:] if words and words[0] in WORDS else words)
    if any("\0" in it or any("\ud800" <= one < "\udc80" or "\udcff" < one <= "\udfff" for one in it) for it in left):
        raise OptionsError("a word isn't text")
    own = options_of(word)
    values: Dict[str, Any] = {}
    rest: List[str] = []
    while left:
        it = left.pop(0)
        if it == "--" or word == "record" and not it.startswith("-"):
            rest += left if it == "--" else [it, *left]
            break
        if it == "-" or not it.startswith("-"):
            rest.append(it)
            continue
        name, equals, text = it.partition("=")
        if name not in own:
            raise OptionsError(_unknown(word, name, own))
        value, field_name = _value(own[name], text if equals else None, left), own[name].attribute
        # (of an option that can't be given several times, the last one counts)
        values[field_name] = (*values.get(field_name, ()), value) if own[name].many else value
    return Given(word, values, tuple(rest))


def _value(option: Option, text: Optional[str], left: List[str]) -> Any:
    """The value of an option: what comes after its `=`, or the next of the words that are left."""
    if not option.value:
        if text is not None:
            raise OptionsError(f"{option.name} takes no value")
        return True
    if text is None and (not left or left[0].startswith("-") and left[0] != "-"):
        raise OptionsError(f"{option.name}: {option.wanted()} is wanted")
    return option.read(left.pop(0) if text is None else text)


def _unknown(word: str, name: str, own: Mapping[str, Option]) -> str:
    """The message for an option that a word doesn't take."""
    others = sorted({one for it in OPTIONS if it.name == name for one in it.words.split()}, key=list(WORDS).index)
    if others:
        does = "do" if len(others) > 1 else "does"
        those = " and ".join(f"rlt {it}" for it in others)
        return f"rlt {word} takes no option {name}, but {those} {does}{nearest(name, own)}"
    return f"there is no option {visible(name)}{nearest(name, own)} (rlt {word} --help lists them)"


def read_options(words: Sequence[str], folder: str = ".", earlier: Optional[Reader] = None) -> Options:
    """Returns the options that the words of a command line and the configuration give.

    `folder` is the one that paths are relative to. With `earlier`, the configuration is that of an earlier commit. Raises
    OptionsError if a word or the configuration is refused.
    """
    given = given_by(words)
    values = dict(given.values)
    if values.get("config") and values.get("no_config"):
        raise OptionsError("give either --config or --no-config")
    found = Options(word=given.word, jobs=processors())
    found = _arguments(found, given, values)
    if given.word in JUDGED.split():
        found = _configured(found, values, folder, earlier)
    elif given.word == "server":
        # (it looks for the configuration of each file anew, and a mistake there doesn't end it)
        found = replace(found, config=values.get("config") or "")
    values["write"] = tuple(map(_written, values.get("write", ())))
    values["format"] = values.get("format") or _format(given.word, values["write"])
    found = replace(found, **{name: it for name, it in values.items() if name not in ("config", "takers", "exclude")})
    _check(found)
    return replace(found, jobs=min(found.jobs, processors()))


def _arguments(found: Options, given: Given, values: Dict[str, Any]) -> Options:
    """The options with the words that are no options. Raises OptionsError if there are too few or too many."""
    most = {"pattern": (1, 1), "compare": (2, 2), "explain": (1, 1), "record": (1, MOST_NUMBER), "server": (0, 0)}
    least, greatest = most.get(given.word, (0, MOST_NUMBER))
    if not least <= len(given.rest) <= greatest:
        raise OptionsError(f"rlt {given.word} {WORDS[given.word][0]} is wanted" if greatest else "rlt server takes no words")
    if "" in given.rest and given.word not in ("pattern", "compare", "record"):
        raise OptionsError("a path is empty")
    if given.word in most:
        return replace(found, arguments=given.rest)
    if "-" in given.rest and (given.word != "check" or len(given.rest) > 1 or "reports" in values):
        raise OptionsError("- reads one source from standard input, alone and for rlt check")
    if "reports" in values:
        values["reports"] = (*values["reports"], *given.rest)
        return found
    if given.word == "accept" and given.rest and not ("accept_all" in values or "prune" in values):
        places = tuple(map(_place, given.rest))
        return replace(found, paths=tuple(dict.fromkeys(it for it, _, _ in places)), are_named=True, places=places)
    return replace(found, paths=given.rest, are_named=True) if given.rest else found


def _place(text: str) -> Tuple[str, int, int]:
    """The path, the line and the column, or 0, of a place such as app.py:12. Raises OptionsError if it is none."""
    found = re.fullmatch("(.+?):([0-9]{1,9})(?::([0-9]{1,9}))?", text, re.S)
    if found is None:
        raise OptionsError(f"rlt accept: a place such as app.py:12 is wanted, not {text!r}")
    return found[1], int(found[2]), int(found[3] or 0)


def _written(text: str) -> Tuple[str, str]:
    """The format and the file of a value of --write. Raises OptionsError if it isn't FORMAT=FILE."""
    name, equals, file = text.partition("=")
    if name not in FORMATS or not file:
        raise OptionsError(f"--write: FORMAT=FILE is wanted, FORMAT one of {', '.join(FORMATS)}{nearest(name, FORMATS)}")
    return name, file


def _format(word: str, written: Sequence[Tuple[str, str]]) -> str:
    """The format that holds if none is named: that of the build server, unless a file gets it anyway."""
    for variable, name in SERVERS.items() if word == "check" else ():
        if os.environ.get(variable) == "true" and name not in (it for it, _ in written):
            return name
    return "terminal"


def _check(found: Options) -> None:
    """Raises OptionsError if options don't go together."""
    is_without_place = found.word == "accept" and not (found.accept_all or found.prune or found.are_named)
    for is_wrong, message in (
            (found.warn_degree is not None and found.warn_degree >= found.max_degree,
             f"warn-degree = {found.warn_degree} must be below max-degree = {found.max_degree}"),
            (found.locked and not found.baseline_commit, "--locked goes with --baseline-commit"),
            (found.baseline_commit.startswith("-"), "--baseline-commit: the name of a commit is wanted"),
            (set(found.flags) - set("aimsuxL"), "--flags: letters of a, i, m, s, u, x and L are wanted"),
            (is_without_place, "rlt accept FILE:LINE --reason WORDS is wanted, or --all, or --prune")):
        if is_wrong:
            raise OptionsError(message)


# ---- the configuration

@dataclass(frozen=True)
class _Settings:
    """What a configuration says: its file, how that is called, its folder, its table, and notes for the user."""

    file: str = ""
    name: str = ""
    folder: str = ""
    table: Mapping[str, Any] = field(default_factory=dict)
    notes: Tuple[str, ...] = ()


def _configured(found: Options, values: Dict[str, Any], folder: str, earlier: Optional[Reader]) -> Options:
    """The options with what the configuration says; the values of the command line win over it."""
    named = [it for it in (*found.paths, *values.get("reports", ())) if found.are_named or "reports" in values]
    if found.paths == ("-",):
        named = [values.get("stdin_filename", ".")]
    start = common_folder([os.path.join(folder, it) for it in named or ["."]])
    kept = _Settings() if values.get("no_config") else _settings(values.get("config"), start, earlier)
    table, notes = dict(kept.table), list(kept.notes)
    for key, most in (("seconds", found.seconds), ("jobs", found.jobs)):
        if table.get(key, 0) > most:
            notes.append(f"{kept.name}: {key} = {table.pop(key)} has no effect: a configuration can only lower it")
    table = {key: it for key, it in table.items() if KEYS[key].attribute not in values or key in ("exclude", "takers")}
    if found.are_named or "reports" in values:
        for it in table.pop("paths", ()):
            _inside(it, kept.name, kept.folder, folder)
    top = kept.folder or _top(start) or os.path.realpath(folder)
    found = replace(found, **_fields(table, kept, folder), config=kept.file, folder=top)
    accepted = values.get("accepted") or table.get("accepted")
    file = values.get("accepted") or _inside(table.get("accepted", ACCEPTED_FILE), kept.name, top, folder)
    more = {name: (*getattr(found, name), *values.get(name, ())) for name in ("exclude", "takers")}
    return replace(found, accepted=file, accepted_named=accepted is not None, notes=tuple(notes),
                   narrowed=_narrowed(table, kept.name, top), **more)


def _fields(table: Mapping[str, Any], kept: _Settings, folder: str) -> Dict[str, Any]:
    """The values of the fields of `Options` that the table of a configuration gives."""
    values: Dict[str, Any] = {KEYS[key].attribute: tuple(it) if isinstance(it, list) else it for key, it in table.items()}
    for key in ("paths", "takers"):
        if key in table:
            values[key] = tuple(_inside(it, kept.name, kept.folder, folder) for it in table[key])
    if isinstance(values.get("wide"), dict):
        values.update(wide=False, wide_table=table["wide"])
    values.pop("accepted", None)
    return values


def _inside(path: str, name: str, top: str, folder: str) -> str:
    """A path of a configuration, seen from `folder`.

    Raises OptionsError unless it lies below `top`, with links followed, and not in a folder of version control, in which a
    token may stand.
    """
    whole = os.path.join(top, path)
    real = os.path.realpath(whole)
    place = name or "the accepted file"
    if set(CONTROL) & set(os.path.relpath(real, top).lower().split(os.sep)):
        raise OptionsError(f"{place}: {visible(path)} lies in a folder of version control")
    if os.path.isabs(path) or not is_below(real, [top]):
        raise OptionsError(f"{place}: {visible(path)} doesn't lie below the configuration's folder")
    return os.path.relpath(whole, os.path.realpath(folder))


def _narrowed(table: Mapping[str, Any], name: str, top: str) -> Tuple[Narrowed, ...]:
    """What a configuration narrows of what is looked at or of what is a finding."""
    narrows = {
        "paths": not any(os.path.realpath(os.path.join(top, it)) == top for it in table.get("paths", [top])),
        "exclude": bool(table.get("exclude")), "max-degree": table.get("max-degree", 0) > Options.max_degree,
        "max-pairs": table.get("max-pairs", MOST_PAIRS) < MOST_PAIRS,
        "compile-as": table.get("compile-as", "search") != "search",
    }
    said = [f"{key} = {table[key]}" if not KEYS[key].many else key for key, it in narrows.items() if it]
    return tuple(Narrowed(name, it) for it in said)


def common_folder(paths: Sequence[str]) -> str:
    """Returns the lowest folder that is there and that all paths are or lie in. It is absolute and has no links in it."""
    found = os.path.commonpath([os.path.realpath(it if os.path.isdir(it) else os.path.dirname(it) or ".") for it in paths])
    while not os.path.isdir(found) and os.path.dirname(found) != found:
        found = os.path.dirname(found)
    return found


def folders_above(start: str) -> List[str]:
    """Returns the folders in which a configuration is looked for, in order: `start`, and the folders above it.

    `start` is an absolute path without links. The last one is the first that is the top of a repository, the home folder or
    the top of the file system, or that lies in a folder of another file system or one to which everybody may write. A folder
    `.hg` that git could track makes no top.
    """
    home = os.path.realpath(os.path.expanduser("~"))
    found = [start]
    while not _has(found[-1], GIT) and found[-1] != home:
        above = os.path.dirname(found[-1])
        if above == found[-1] or not _is_trusted(above, found[-1]):
            break
        found.append(above)
    if _has(found[-1], GIT) and found[-1] != home:
        return found
    tops = [at for at, it in enumerate(found) if _has(it, HG)]
    return found[:tops[0] + 1] if tops else found


def _has(folder: str, name: str) -> bool:
    """Whether a folder has something of this name."""
    return os.path.lexists(os.path.join(folder, name))


def _is_top(folder: str) -> bool:
    """Whether a folder is the top of a repository."""
    return any(_has(folder, it) for it in TOPS)


def _top(start: str) -> str:
    """The top of the repository that a folder lies in, or "" if it lies in none."""
    last = folders_above(start)[-1]
    return last if _is_top(last) else ""


def _is_trusted(above: str, below: str) -> bool:
    """Whether a folder is on the same file system as the one below it, and not everybody may write to it."""
    try:
        upper, lower = os.stat(above), os.stat(below)
    except OSError:
        return False
    return upper.st_dev == lower.st_dev and not upper.st_mode & stat.S_IWOTH


def _settings(named: Optional[str], start: str, earlier: Optional[Reader]) -> _Settings:
    """What the named configuration says, or the nearest one from the folder `start` on; nothing if there is none."""
    if named is not None:
        table, notes = _table(named, True, earlier)
        return _made(named, table or {}, notes)
    said: Tuple[str, ...] = ()
    for folder in folders_above(start):
        own, shared = os.path.join(folder, OWN_FILE), os.path.join(folder, SHARED_FILE)
        (table, notes), (other, more) = (_table(it, False, earlier) for it in (own, shared))
        if table is not None:
            if other is not None:
                notes += (f"{_called(shared)}: its table tool.relint has no effect, as {OWN_FILE} lies beside it",)
            return _made(own, table, said + notes)
        said += notes + more
        if other is not None:
            return _made(shared, other, said)
    return _Settings(notes=said)


def _made(file: str, table: Mapping[str, Any], notes: Tuple[str, ...]) -> _Settings:
    """The configuration of a table. Raises OptionsError for a key that isn't known, or a value that its key doesn't take."""
    name = _called(file)
    for key, value in table.items():
        option = KEYS.get(key)
        if option is None:
            hint = nearest(key.replace("_", "-"), KEYS) or f"; the keys are {', '.join(KEYS)}"
            raise OptionsError(f"{name}: there is no key {ascii(key)[:60]}{hint}")
        if not option.takes(value) or key == "paths" and not value:
            wanted = option.wanted() if option.value else "true or false"
            wanted = f"a list of texts of {MOST_OF_A_LIST:,} characters at most" if option.many else wanted
            raise OptionsError(f"{name}: {key} = {ascii(value)[:60]}: {wanted} is wanted{nearest(str(value), option.choices)}")
    return _Settings(file, name, os.path.realpath(os.path.dirname(file) or "."), table, notes)


def _called(file: str) -> str:
    """How messages call a file: by its path from the current folder if it lies below it."""
    path = os.path.relpath(file)
    return visible(file if path.startswith("..") else path)


def _table(file: str, named: bool, earlier: Optional[Reader]) -> Tuple[Optional[Mapping[str, Any]], Tuple[str, ...]]:
    """The table of keys in a file, which it must have if the user `named` it, and notes. Raises OptionsError."""
    name, own = _called(file), os.path.basename(file) != SHARED_FILE
    data = _bytes_of(file, name, named) if named or os.path.lexists(file) else None
    notes: Tuple[str, ...] = ()
    if earlier is not None and (not named or _top(common_folder([file]))):
        before = earlier(os.path.abspath(file))
        if before != data and (own or b"relint" in (before or b"") + (data or b"")):
            notes = (f"the change touches {name}: what it says there counts once it is merged",)
        data = before
    if data is None or not own and not named and b"relint" not in data:
        return None, notes
    try:
        document = read_toml(data.decode("utf-8"))
    except ValueError as error:
        raise OptionsError(f"{name}: no TOML: {str(error)[:200]} (--no-config goes on without it)") from error
    if own:
        return document, notes
    tools = document.get("tool", {})
    table = tools.get("relint") if isinstance(tools, dict) else None
    if table is None and named or table is not None and not isinstance(table, dict):
        raise OptionsError(f"{name}: there is no table tool.relint")
    return table, notes


def _bytes_of(file: str, name: str, named: bool) -> bytes:
    """The bytes of a configuration. Raises OptionsError for what can't be read, and for an unnamed link out of its folder."""
    folder, real = os.path.realpath(os.path.dirname(file) or "."), os.path.realpath(file)
    if not named and os.path.dirname(real) != folder:
        raise OptionsError(f"{name}: a link out of its folder: name the file by --config, or give --no-config")
    try:
        return read_named(real, MOST_BYTES)
    except OpenError as error:
        raise OptionsError(f"{name} can't be read: {error}", 3) from error


def read_toml(text: str) -> Dict[str, Any]:
    """Returns the table that a TOML text holds. Raises ValueError if it isn't TOML, or costs too much to read."""
    # (the time of the reader grows with the square of the number of parts of a key)
    if any(line.count(".") > MOST_DOTS for line in text.splitlines()):
        raise ValueError(f"a line has more than {MOST_DOTS:,} dots")
    for name in ("tomllib", "tomli"):
        try:
            reader: Any = importlib.import_module(name)
        except ImportError:
            continue
        try:
            table: Dict[str, Any] = reader.loads(text)
            return table
        except RecursionError as error:
            raise ValueError("it is nested too deeply") from error
    raise OptionsError("to read TOML before Python 3.11, install the package tomli")


# ---- help

def help_of(word: str = "") -> str:
    """Returns the help of a word, of at most 25 lines; without a word, the list of the words in ten lines."""
    if not word:
        rows = [f"  rlt {name + ' ' + given:<33} {about}" for name, (given, about) in WORDS.items()]
        head = f"rlt {version()}: finds regular expressions that a crafted text can make extremely slow; rlt WORD --help"
        return "\n".join([head, *rows]) + "\n"
    arguments, about = WORDS[word]
    lines, group = [f"rlt {word} {arguments}".rstrip() + f": {about}"], ""
    for names, it in _help_rows(word):
        lines.append(f"{it.group if it.group != group else '':<6} {names:<37} {it.help}{_default(it)}")
        group = it.group
    return "\n".join([*lines, f"{'':<6} {'-h, --help; --version':<37} this help; the version"]) + "\n"


def _help_rows(word: str) -> List[Tuple[str, Option]]:
    """The lines of help: the names of the options in it, and the row that has the words."""
    rows: List[Tuple[str, Option]] = []
    for it in (it for it in OPTIONS if word in it.words.split()):
        name = f"{it.short}, {it.name}" if it.short else f"{it.name} {it.value}".rstrip()
        if it.help or not rows:
            rows.append((name, it))
        else:
            rows[-1] = (f"{rows[-1][0]}, {name}", rows[-1][1])
    return rows


def _default(option: Option) -> str:
    """The default of an option, for its help; "" for a switch and for one without a default that says something."""
    if not option.value or not option.default or option.default == () or option.attribute in ("format", "accepted", "jobs"):
        return ""
    return f" ({option.default:,})" if isinstance(option.default, int) else f" ({option.default})"
