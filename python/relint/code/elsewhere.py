"""Finds uses of a pattern in other files than its own: first in their bytes, then in the trees of those that may have some.

Where the top package of a file begins isn't known, so two dotted names may mean the same module if one ends with the other.
What stands in a comment doesn't count; what stands in a string does.

What isn't seen: an object that is got by a name made while the program runs, in a file that neither imports the pattern's
file nor uses the object as a pattern at once; and one that is got from a frame or the collector of garbage, in a file that
isn't near, as it neither imports the pattern's file nor is imported by it, and that takes no method of such an object itself.
"""
from __future__ import annotations

import ast
import codecs
import os
import re
import unicodedata
from functools import lru_cache
from typing import (
    Any, Callable, Container, Dict, FrozenSet, Iterator, List, NamedTuple, Optional, Sequence, Set, Tuple,
)

from .names import Import, Scope
from .source import SourceError, Unit
from .uses import (
    ANY_OBJECT, FRAMES, GIVES_ATTRIBUTES, GROUPS, IMPORTERS, LOCATORS, METHODS, RUNS_TEXT, Follower, LocalUses, Lost, Name,
    is_loaded, is_other, is_passed_on,
)

# Files that may use a pattern: sources of Python and Cython, stubs, notebooks, templates.
PYTHON, CYTHON, STUB, NOTEBOOK = (".py", ".pyw"), (".pyx", ".pxd", ".pxi"), (".pyi",), (".ipynb",)
TEMPLATES = (".html", ".htm", ".j2", ".jinja", ".jinja2", ".mako", ".mak", ".tmpl", ".tpl")
PROJECT_ENDINGS = (*PYTHON, *STUB, *CYTHON, *NOTEBOOK, *TEMPLATES)
Parts = Tuple[str, ...]

# Bytes that may be a part of a name in UTF-8; and what may come between a dot and a name.
WORDS = re.compile(rb"[0-9A-Za-z_\x80-\xff]+")
LETTERS = frozenset(bytes((it,)) for it in range(256) if WORDS.match(bytes((it,))))
BEHIND_DOT = re.compile(rb"\.(?:[\s\\]|#[^\n]*\n)*\Z")
NO_WORD, GAP = rb"(?![0-9A-Za-z_\x80-\xff])", rb"(?:[\s\\]|#[^\n]*\n)*"
# What stands behind a name that isn't a module there: a dot, a call, or a binding; and the name before one, with a dot.
NO_MODULE = re.compile(GAP + rb"[.(=]")
BASE = re.compile(rb"([0-9A-Za-z_\x80-\xff]+)\.\Z")
# From an import statement to its end, which parentheses and backslashes move to a later line.
TO_THE_END = re.compile(rb"(?:[^\n\\(#]+|\\\r?\n|\\(?!\r?\n)|\((?:[^()#]+|#[^\n]*(?:\n|\Z))*(?:\)|(?=\()|\Z))*(?:#[^\n]*)?")
CODE_OR_NOT = re.compile(rb"\"\"\"(?:[^\"\\]|\\.|\"(?!\"\"))*\"\"\"|'''(?:[^'\\]|\\.|'(?!''))*'''|\"(?:[^\"\\\n]|\\.)*\""
                         rb"|'(?:[^'\\\n]|\\.)*'|(#[^\n]*)", re.S)
CODING = re.compile(rb"^[ \t\f]*#.*?coding[:=][ \t]*([-\w.]+)")
# What each usual coding leaves as it is, and others, such as UTF-7, don't.
PROBE = bytes(range(32, 127)) + rb"\x41\u0041+AEE-~{AA~}"
FRAMED = {it: tuple(word.encode() for word in words) for it, words in FRAMES.items()}
GARBAGE = tuple(it.encode() for it in ANY_OBJECT)
DYNAMIC = tuple(it.encode() for it in (*IMPORTERS, "modules"))
BY_STRING = (*DYNAMIC, *(it.encode() for it in LOCATORS), b"getattr", b"attrgetter", b"methodcaller", b"patch")
TAKING = tuple(it.encode() for it in sorted(METHODS - {"split"}))
TAKING_TOO = tuple(it.encode() for it in sorted(METHODS))
RUNNING = tuple(it.encode() for it in sorted(RUNS_TEXT))
GIVING = tuple(it.encode() for it in GIVES_ATTRIBUTES)
READING = (b"case", b"getattr", b"attrgetter", b"methodcaller", b"vars", b"__dict__", b"getmembers", *GIVING, *RUNNING)
TAKEN_AT_ONCE = re.compile(rb"getattr\s*\((?:[^()]|\([^()]*\))*\)\s*\.\s*(?:" + "|".join(sorted(METHODS)).encode() + rb")\b")
BOUND = re.compile(rb"(?:=|\b(?:" + "|".join(sorted(METHODS)).encode() + rb")\s*\()[\s\\(]*\Z")
# Up to so many names are looked for one by one in the bytes of a file; for more, the bytes are split into words.
FEW_NAMES = 100
HARMLESS = frozenset((
    "hasattr", "setattr", "delattr", "isinstance", "id", "bool", "dir", "str", "repr", "print", "getfile", "getabsfile",
    "getsource", "getsourcefile",
))


class Asked(NamedTuple):
    """What is looked for: a name of the file `home` and its kind, as in `uses.Name`. For "match" and frames, `home` is ""."""

    home: str
    name: str
    kind: str


def module_parts(path: str) -> Parts:
    """Returns the parts of a file's dotted name as a module, with the names of all folders above its top package in front.

    `/top/a/b.py` gives ("top", "a", "b"), and `/top/a/__init__.py` gives ("top", "a").
    """
    parts = [it for it in os.path.abspath(path).split(os.sep) if it]
    stem = os.path.splitext(parts[-1])[0]
    return tuple(parts[:-1] if stem == "__init__" else [*parts[:-1], stem])


# ---- in bytes

def import_statements(data: bytes) -> List[bytes]:
    """Returns the import statements of a source, and some lines more, found by the word `import` without parsing."""
    found: List[bytes] = []
    at = data.find(b"import")
    while at >= 0:
        start = data.rfind(b"\n", 0, at) + 1
        while data[max(0, start - 3):start] == b"\\\r\n" or data[max(0, start - 2):start] == b"\\\n":
            start = data.rfind(b"\n", 0, start - 1) + 1
        ending = TO_THE_END.match(data, at)
        end = max(at + 6, ending.end() if ending else 0)
        found.append(data[start:end])
        at = data.find(b"import", end)
    return found


def imported_words(data: bytes) -> Set[bytes]:
    """Returns the words of all import statements of a source, and some more."""
    return set(WORDS.findall(b"\n".join(import_statements(data))))


def is_near(path: str, words: Container[bytes], home: str, words_at_home: Container[bytes]) -> bool:
    """Returns whether one of two files may import the other, by the words of their imports."""
    def stem(of: str) -> bytes:
        """The last part of a file's name as a module."""
        folder, name = os.path.split(of)
        return os.path.splitext(os.path.basename(folder) if name.startswith("__init__.") else name)[0].encode(
            "utf-8", "surrogateescape")

    return stem(home) in words or stem(path) in words_at_home


@lru_cache(None)
def kind_of_coding(coding: str) -> str:
    """Returns "utf-8"; "plain" for another coding of single bytes with those of ASCII; "odd" for the rest, "" if unknown."""
    try:
        if codecs.lookup(coding).name == "utf-8":
            return "utf-8"
        is_plain = PROBE.decode(coding) == PROBE.decode("ascii") and len(bytes(range(256)).decode(coding, "replace")) == 256
        return "plain" if is_plain else "odd"
    except LookupError:
        return ""
    except ValueError:
        return "odd"


def as_python_reads(data: bytes) -> Optional[bytes]:
    """Returns a source in UTF-8, in which other forms of letters, such as full-width ones, are plain, as in Python's names.

    Returns b"" for a coding that Python doesn't know, and None for one in which bytes of ASCII may mean something else.
    """
    lines = data[:2000].splitlines()[:2] if b"coding" in data[:2000] else []
    found = [it.group(1).decode("latin-1") for it in map(CODING.match, lines) if it]
    kind = kind_of_coding(found[0]) if found else "utf-8"
    if kind in ("odd", ""):
        return b"" if not kind else None
    if data.isascii():
        return data
    text = data.decode("utf-8", "surrogateescape") if kind == "utf-8" else data.decode(found[0], "replace")
    if kind == "utf-8" and unicodedata.is_normalized("NFKC", text):
        return data
    return unicodedata.normalize("NFKC", text).encode("utf-8", "surrogateescape")


def without_comments(data: bytes) -> bytes:
    """Returns a source without its comments, as far as that can be told from its strings alone."""
    return CODE_OR_NOT.sub(lambda it: b" " if it.group(1) else it.group(), data)


def places(data: bytes, word: bytes) -> Iterator[int]:
    """Yields where a word begins."""
    size, at = len(word), data.find(word)
    while at >= 0:
        if data[at - 1:at] not in LETTERS and data[at + size:at + size + 1] not in LETTERS:
            yield at
        at = data.find(word, at + size)


class Mentions:
    """What is looked for in the bytes of many files."""

    def __init__(self, asked: Sequence[Asked], root: str, words_of: Callable[[str], Container[bytes]]) -> None:
        """Takes what is looked for, and the folder in which all files lie, whose own name may be that of a package.

        `words_of` returns the words of the imports of the file at a path.
        """
        self.asked, self._words_of = list(asked), words_of
        above = max(0, len([it for it in os.path.abspath(root).split(os.sep) if it]) - 1)
        self._parts = [frozenset(it.encode() for it in module_parts(one.home)[above:]) if one.home else frozenset()
                       for one in asked]
        self._stems = [os.path.splitext(os.path.basename(it.home))[0].encode() for it in asked]
        self._names = [it.name.encode() for it in asked]
        self._signs = self._all_signs()

    def _all_signs(self) -> Tuple[bytes, ...]:
        """Words of which each file that may reach something has one; none if a file may need none of them."""
        if any(one.kind in ("module", "attribute") and stem == b"__init__" for one, stem in zip(self.asked, self._stems)):
            return ()
        signs = {*self._names, *GARBAGE}
        for one, parts, stem in zip(self.asked, self._parts, self._stems):
            signs.update(FRAMED.get(one.kind, ()))
            if one.kind in ("module", "attribute"):
                signs |= {*parts, stem, b"__main__"}
            if one.kind == "attribute":
                signs.add(b"getattr")
        return tuple(it for it in signs if not any(other in it for other in signs - {it}))

    def of(self, path: str, data: bytes) -> List[Tuple[int, str]]:
        """Returns the numbers of those that a file may reach; only its tree tells if it does.

        With a number that has a clause, the file isn't to be parsed; the clause says why nothing is known then.
        """
        if not path.endswith(PYTHON):
            named = [at for at, name in enumerate(self._names) if name in data]
            return [(at, why) for at in named for why in (reason_in_text(path, data, self.asked[at]),) if why]
        known = as_python_reads(data)
        if known is None:
            return [(at, f"{path} has a coding that isn't read") for at in range(len(self.asked))]
        if self._signs and not any(it in known for it in self._signs):
            return []
        file = _File(path, known, len(self.asked) > FEW_NAMES)
        return [(at, "") for at, it in enumerate(self.asked) if self._reaches(file, at, it)]

    def _reaches(self, file: "_File", at: int, asked: Asked) -> bool:
        """Whether a file may reach one that is looked for."""
        name, kind = self._names[at], asked.kind
        if kind == "match":
            return name in file.known and file.has_attribute(name)
        is_named = name in file.known
        if kind in ("local", "default"):
            return file.path != asked.home and self._has_frames(file, asked, is_named)
        if kind == "class":
            return is_named and b"class" in file.known and file.path != asked.home
        is_package = self._stems[at] == b"__init__" and bool(file.words)
        is_related = is_package or not self._parts[at].isdisjoint(file.words) or b"__main__" in file.words
        if is_named and (is_related and (name in file.words or file.has_star)
                         or file.has_attribute(name)):
            return True
        bound = file.bound(self._parts[at]) if is_related else set()
        close = is_package or bool(bound) or self._stems[at] in file.words
        if kind == "attribute":
            is_read = (close or is_named) and file.has(READING)
            return is_read or file.takes_at_once or self._has_frames(file, asked, is_named)
        if kind != "module":
            return False
        if self._has_frames(file, asked, is_named) or close and (file.has_star or file.runs()):
            return True
        if is_named and (file.has(BY_STRING) or file.runs()):
            return True
        stem = self._stems[at]
        if stem in file.known and file.has(DYNAMIC) and (
                stem == b"__init__" or file.is_in_string(stem) or file.takes_by_name()):
            return True
        return bool(bound) and file.has_bare(bound | {module_parts(asked.home)[-1].encode()}, self._parts[at])

    def _has_frames(self, file: "_File", asked: Asked, is_named: bool) -> bool:
        """Whether a file may get what is looked for from a frame, a function or the collector of garbage."""
        if not file.has(GARBAGE) and not file.has(FRAMED[asked.kind]):
            return False
        is_near_it = is_near(file.path, file.words, asked.home, self._words_of(asked.home))
        return is_named or is_near_it or file.has_attributes(TAKING)


class _File:
    """The bytes of one file, and what was found in them."""

    def __init__(self, path: str, data: bytes, is_split: bool) -> None:
        """Takes the path and the bytes; `is_split` says that so many words are looked for that splitting is quicker."""
        self.path, self.data = path, data
        self.statements = import_statements(data)
        self.words = set(WORDS.findall(b"\n".join(self.statements)))
        self.has_star = any(b"*" in it for it in self.statements)
        self.known: Any = set(WORDS.findall(data)) if is_split else data
        self.takes_at_once = b"getattr" in self.known and bool(TAKEN_AT_ONCE.search(data))
        self._has: Dict[Tuple[bytes, ...], bool] = {}
        self._rest: Optional[bytes] = None
        self._tails: Optional[List[List[bytes]]] = None

    def has(self, words: Tuple[bytes, ...]) -> bool:
        """Whether one of these words is in the file."""
        if words not in self._has:
            self._has[words] = any(it in self.known and any(True for _ in places(self.data, it)) for it in words)
        return self._has[words]

    def has_attribute(self, name: bytes) -> bool:
        """Whether a name may stand behind a dot; a comment or a line's end may be between them."""
        for at in places(self.data, name):
            before = self.data[max(0, at - 400):at]
            if before.endswith(b".") or before[-1:] in b" \t\r\n\f\\" and BEHIND_DOT.search(before):
                return True
        return False

    def is_in_string(self, word: bytes) -> bool:
        """Whether a word may be in a string: in its line, quotes stand before and behind it."""
        for at in places(self.data, word):
            line = self.data[self.data.rfind(b"\n", 0, at) + 1:(self.data.find(b"\n", at) + 1 or len(self.data) + 1) - 1]
            first, last = (line.find(b"\""), line.rfind(b"\"")) if b"\"" in line else (len(line), -1)
            if b"'" in line:
                first, last = min(first, line.find(b"'")), max(last, line.rfind(b"'"))
            if first < at - self.data.rfind(b"\n", 0, at) - 1 < last:
                return True
        return False

    def has_attributes(self, names: Tuple[bytes, ...]) -> bool:
        """Whether one of these names may stand behind a dot."""
        key = (b".", *names)
        if key not in self._has:
            self._has[key] = any(it in self.known and self.has_attribute(it) for it in names)
        return self._has[key]

    def takes_by_name(self) -> bool:
        """Whether the file may use as a pattern what `getattr` gives."""
        if self.takes_at_once or b"getattr" not in self.known:
            return self.takes_at_once
        is_bound = any(BOUND.search(self.data[max(0, at - 40):at]) for at in places(self.data, b"getattr"))
        return is_bound and (b"re" in self.words or self.has_attributes(TAKING_TOO))

    def runs(self) -> bool:
        """Whether the file may run a text."""
        return self.has(RUNNING) and any(self.data[at - 1:at] != b"." for it in RUNNING for at in places(self.data, it))

    def bound(self, parts: FrozenSet[bytes]) -> Set[bytes]:
        """The names to which imports may bind a module, or a package, with one of these names."""
        if self._tails is None:
            found = [WORDS.findall(it) for it in self.statements]
            self._tails = [it[it.index(b"import") + 1:] if {b"from", b"import"} <= set(it) else it for it in found]
        bound: Set[bytes] = set()
        for words in self._tails:
            if not parts.isdisjoint(words):
                bound.update(parts.intersection(words))
                bound.update(words[at + 1] for at in range(1, len(words) - 1) if words[at] == b"as" and words[at - 1] in parts)
        return bound

    def has_bare(self, bound: Set[bytes], parts: FrozenSet[bytes]) -> bool:
        """Whether one of these names may stand alone, or behind one of them or of `parts`; or an attribute gives all names."""
        if self._rest is None:
            self._rest = self.data
            for statement in self.statements:
                self._rest = self._rest.replace(statement, b"", 1)
        if any(it in self._rest for it in GIVING):
            return True
        for name in bound:
            for at in places(self._rest, name):
                base = BASE.search(self._rest[max(0, at - 200):at])
                if not NO_MODULE.match(self._rest, at + len(name)) and (
                        not base or base.group(1) in bound or base.group(1) in parts):
                    return True
        return False


def reason_in_text(path: str, data: bytes, asked: Asked) -> str:
    """Returns a clause why a file that isn't parsed may use what is looked for; "" if it can't."""
    same = os.path.splitext(path)[0] == os.path.splitext(asked.home)[0]
    if path.endswith(STUB) and not same:
        return ""
    code = without_comments(data) if path.endswith((*PYTHON, *CYTHON, *STUB)) else data
    name, words = asked.name.encode(), set(WORDS.findall(code))
    if name not in words or asked.kind == "class":
        return ""
    if path.endswith(STUB):
        return f"the stub {path} tells others of it" if asked.kind in ("module", "attribute") else ""
    if asked.kind in ("local", "default"):
        return f"{path} may read it from a frame" if words & {*FRAMED[asked.kind], *GARBAGE} else ""
    dotted = bool(re.search(rb"\." + GAP + re.escape(name) + NO_WORD, code))
    near = set(it.encode() for it in module_parts(asked.home)[-1:]) if asked.home else set()
    is_code = not path.endswith(TEMPLATES)
    return f"{path} may use it" if dotted or is_code and near & words and asked.kind != "match" else ""


# ---- in trees

def uses_in(unit: Unit, asked: Asked, near: bool = True) -> LocalUses:
    """Returns what is found of a pattern in another file, which may reach it by a name or in the way that `asked` says.

    `near` says whether the two files are, as by `is_near`.
    """
    found = LocalUses()
    try:
        follower = Follower(unit, found)
        if asked.kind in FRAMES and unit.path != asked.home:
            follower.refuse_frames(asked.name, asked.kind, near)
        if asked.kind not in ("local", "default"):
            _KINDS.get(asked.kind, _method)(follower, asked)
        follower.finish()
    except SourceError:
        found.lost = "it can't be parsed, and may use it" if _may_reach(unit, asked) else ""
    except RecursionError:
        found.lost = "it is nested too deeply"
    except Lost as lost:
        found.lost = str(lost)
    return found


def _may_reach(unit: Unit, asked: Asked) -> bool:
    """Whether a file that can't be parsed may reach what is asked, by the words of its code."""
    code = without_comments(unit.text.encode("utf-8", "surrogatepass"))
    words, imports = set(WORDS.findall(code)), imported_words(code)
    if asked.name.encode() in words or words & set(FRAMED.get(asked.kind, ())):
        return True
    is_near = os.path.splitext(os.path.basename(asked.home))[0].encode() in imports
    return is_near and (asked.kind == "module" or asked.kind == "attribute" and bool(words & set(READING)))


def _match(follower: Follower, asked: Asked) -> None:
    """Follows the attributes that give the pattern of a match."""
    follower.giving(asked.name)


def _class(follower: Follower, asked: Asked) -> None:
    """Looks for subclasses of a class of the file `home`, and for names under which the class is imported."""
    names = {asked.name}
    for node, base, module in _reached(follower, asked.home):
        for it in node.names if isinstance(node, ast.ImportFrom) and _is_module(base, module) else ():
            if it.name in (asked.name, "*"):
                names.add(it.asname or asked.name)
                follower.found.names.append(Name(it.asname or asked.name, "class"))
    for name in sorted(names):
        follower.subclasses(name, None)


def _attribute(follower: Follower, asked: Asked) -> None:
    """Follows an attribute of any object."""
    loads = [it for it in follower.names.attributes.get(asked.name, ()) if is_loaded(it) and not follower.is_own(it)]
    if loads or any(_is_itself(*it) for it in _reached(follower, asked.home)):
        follower.refuse_reading_attributes()
        follower.attributes(asked.name)
    else:
        _refuse_strings(follower, asked.name)
        for call in follower.calls_of("getattr"):
            _refuse_taken(follower, call, asked.name)


def _refuse_strings(follower: Follower, name: str) -> None:
    """Raises Lost if the file has the name in a string, and a function that takes the names of attributes or modules."""
    readers = [it for it in ("getattr", "attrgetter", "methodcaller", "vars", "getattr_static", "patch", *IMPORTERS, *LOCATORS)
               if follower.names.loads(follower.names.module, it) or it in follower.names.attributes]
    if readers and name in follower.names.ways():
        raise Lost(f"the name {name} is in a string, as for {readers[0]}")
    if name in follower.names.cases:
        raise Lost(f"a case reads the attribute {name}")


def _refuse_running(follower: Follower) -> None:
    """Raises Lost if the file may run a text with its own names; text with names of its own can only import what all can."""
    names = follower.names
    for name in sorted(RUNS_TEXT):
        own = any(names.loads(names.module, it) for it in ("globals", "locals", "vars"))
        plain = [it for it in follower.calls_of(name) if own or len(it.args) < 2]
        if plain or len(names.loads(names.module, name)) > len(follower.calls_of(name)):
            raise Lost(f"the file uses {name}, which may reach the pattern")


def _refuse_taken(follower: Follower, call: ast.Call, name: str) -> None:
    """Raises Lost if a call of `getattr` may give the attribute, and its value is used as a pattern."""
    if len(call.args) > 1 and not is_other(call.args[1], name) and _is_pattern(follower, call):
        raise Lost(f"getattr in line {call.lineno} may take {name}")


def _is_pattern(follower: Follower, call: ast.Call) -> bool:
    """Whether the value of a call is used as a pattern at once, or by the name to which it is bound."""
    parent: Any = follower.names.parents.get(call)
    nodes: List[Any] = [parent]
    if isinstance(parent, ast.Assign) and len(parent.targets) == 1 and isinstance(parent.targets[0], ast.Name):
        target = parent.targets[0]
        loads = follower.names.loads(follower.names.inside[target].home(target.id), target.id)
        nodes = [follower.names.parents.get(it) for it in loads]
    return any(isinstance(it, ast.Attribute) and it.attr in METHODS
               or isinstance(it, ast.Call) and follower.function_of_re(it.func) for it in nodes)


def _method(follower: Follower, asked: Asked) -> None:
    """Looks at the calls of a name that holds a method of the pattern, as `is_valid = re.compile(..).match` binds it."""
    method = asked.kind.partition(" ")[2]
    nodes: List[Any] = [it for it in follower.names.attributes.get(asked.name, ())
                        if is_loaded(it) and follower.class_of(it) is None and follower.path != asked.home]
    for scope, bound in _bound_by(follower, asked):
        nodes += follower.names.loads(scope, bound)
        follower.found.names.append(Name(bound, asked.kind))
    for it in nodes:
        if method in ("match", "fullmatch") and not follower.is_plain_call(it):
            if method == "fullmatch" or isinstance(follower.names.parents.get(it), ast.Attribute):
                raise Lost(f"its method {asked.name} is given on in line {it.lineno}")
            follower.use(method, it.lineno, True, GROUPS, True)


def _module(follower: Follower, asked: Asked) -> None:
    """Follows a name of the module `home`, and the module itself, which mustn't go elsewhere."""
    name, is_home = asked.name, follower.path == asked.home
    reached = list(_reached(follower, asked.home))
    if not is_home:
        if any(_is_itself(*it) for it in reached):
            follower.refuse_string(name)
            _refuse_running(follower)
        else:
            _refuse_strings(follower, name)
            if follower.names.loads(follower.names.module, name) and name not in follower.names.module.bindings:
                _refuse_running(follower)
    for scope, bound in _bound_by(follower, asked):
        follower.name(scope, bound, "module" if scope.kind == "module" else "local")
    value = _ModuleValue(follower, asked)
    for node, base, module in reached:
        for scope, bound, parts in _modules_bound(follower, node, base, module):
            for load in follower.names.loads(scope, bound):
                value.follow(load, not _is_module(parts, module))
    for it in follower.names.attributes.get(name, ()):
        is_call = isinstance(it.value, (ast.Call, ast.Subscript))
        if is_loaded(it) and (reached or is_call or not is_home) and not _is_surely_other(follower, it, reached):
            follower.value(it)
    value.dynamic()


def _is_surely_other(follower: Follower, node: ast.Attribute, reached: Sequence[Tuple[Import, Parts, Parts]]) -> bool:
    """Whether `x.NAME` can't be a module's name: `x` is `self` or `cls`, or bound only by `import x` of another module."""
    if follower.class_of(node) is not None:
        return True
    bound = follower.names.meant(node.value) if isinstance(node.value, ast.Name) else []
    above = [follower.names.parents.get(it) for it in bound]
    near = [it for it, _, _ in reached]
    return bool(bound) and all(
        isinstance(it, ast.Import) and it not in near and it.names[0].name != "__main__" for it in above)


class _ModuleValue:
    """Follows expressions whose value is the module of a pattern, or a package around it."""

    def __init__(self, follower: Follower, asked: Asked) -> None:
        """Takes the follower of the file, and what is looked for."""
        self.follower, self.names, self.name = follower, follower.names, asked.name
        self.module = module_parts(asked.home)
        self.is_home = follower.path == asked.home

    def follow(self, node: ast.AST, is_open: bool = False, depth: int = 0) -> None:
        """Raises Lost if the module goes elsewhere; with `is_open`, the value may be any module, or a package around it."""
        parent: Any = self.names.parents.get(node)
        if isinstance(parent, ast.Attribute):
            if parent.attr in GIVES_ATTRIBUTES and not is_open:
                raise Lost(f"{parent.attr} of its module is taken in line {parent.lineno}")
            if parent.attr in self.module and is_loaded(parent):
                self.follow(parent, is_open and parent.attr != self.module[-1], depth)
        elif is_passed_on(node, parent) or isinstance(parent, ast.Await):
            self.follow(parent, is_open, depth)
        elif isinstance(parent, (ast.Assign, ast.AnnAssign, ast.NamedExpr)):
            self._bound(parent, is_open, depth)
            if isinstance(parent, ast.NamedExpr):
                self.follow(parent, is_open, depth)
        elif isinstance(parent, ast.Call):
            if parent.func is not node:
                self._given(node, parent, is_open)
        elif not is_open and not isinstance(parent, (ast.Expr, ast.Compare)) and not self.follower.is_tested(node):
            raise Lost(f"its module goes elsewhere in line {getattr(node, 'lineno', 0)}")

    def _bound(self, node: Any, is_open: bool, depth: int) -> None:
        """Follows the name to which the module is bound."""
        targets = node.targets if isinstance(node, ast.Assign) else [node.target]
        if depth > 8 or len(targets) != 1 or not isinstance(targets[0], ast.Name):
            if not is_open:
                raise Lost(f"its module goes elsewhere in line {node.lineno}")
            return
        home = self.names.inside[targets[0]].around().home(targets[0].id)
        for load in self.names.loads(home, targets[0].id):
            self.follow(load, is_open, depth + 1)

    def _given(self, node: ast.AST, call: ast.Call, is_open: bool) -> None:
        """Looks at a call that the module is given to."""
        named = last_name(call.func)
        is_first = call.args[:1] == [node]
        if named == "getattr" and is_first and len(call.args) > 1 and is_other(call.args[1], self.name):
            return
        if is_open:
            if named == "getattr" and is_first:
                _refuse_taken(self.follower, call, self.name)
        elif named == "reload" and is_first:
            self.follow(call)
        elif named not in HARMLESS and not self.follower.is_tested(node):
            raise Lost(f"its module is given to a call in line {call.lineno}")

    def dynamic(self) -> None:
        """Follows what functions such as `import_module`, and `sys.modules`, give by the names of modules."""
        for call in self.names.calls:
            if last_name(call.func) in IMPORTERS:
                self._by_name(call, call.args[0] if call.args else None)
            elif last_name(call.func) in LOCATORS and not any(isinstance(it, ast.Constant) for it in call.args[:1]):
                if _is_pattern(self.follower, call):
                    raise Lost(f"{last_name(call.func)} in line {call.lineno} may give {self.name}")
        for table in self.follower.module_tables() if not self.is_home else ():
            above: Any = self.names.parents.get(table)
            key = self.follower.key_of(table)
            if key is not None and not (isinstance(key, ast.Name) and key.id == "__name__"):
                self._by_name(above if isinstance(above, ast.Subscript) else self.names.parents[above], key)

    def _by_name(self, node: ast.AST, key: Optional[ast.AST]) -> None:
        """Follows an expression whose value is the module that `key` names."""
        text = key.value if isinstance(key, ast.Constant) else None
        if not isinstance(text, str):
            self.follow(node, True)
        elif _is_around(tuple(it for it in re.split("[.:]", text) if it), self.module):
            self.follow(node)


def last_name(node: ast.AST) -> str:
    """Returns the last part of a dotted name, "b" for `a.b`; "" for an expression of another form."""
    return node.id if isinstance(node, ast.Name) else node.attr if isinstance(node, ast.Attribute) else ""


def _reached(follower: Follower, home: str) -> Iterator[Tuple[Import, Parts, Parts]]:
    """Yields the imports that may reach the module of `home`, each with its base and the module's dotted name."""
    module, own = module_parts(home), module_parts(follower.path)
    is_package = os.path.basename(follower.path).startswith("__init__.")
    for node in follower.names.imports:
        base = _base(node, own, is_package)
        if isinstance(node, ast.ImportFrom) and (_is_module(base, module) or base == ("__main__",)):
            yield node, base, module
        elif any(_is_around((*base, *it.name.split(".")), module) for it in node.names):
            yield node, base, module
        elif isinstance(node, ast.ImportFrom) and _is_around(base, module) and any(it.name == "*" for it in node.names):
            yield node, base, module


def _bound_by(follower: Follower, asked: Asked) -> Iterator[Tuple[Scope, str]]:
    """Yields the names that `from` statements bind to a name of the module `home`; `*` may bind it too."""
    for node, base, module in _reached(follower, asked.home):
        if isinstance(node, ast.ImportFrom) and (_is_module(base, module) or base == ("__main__",)):
            for it in node.names:
                if it.name in (asked.name, "*"):
                    scope = follower.names.inside[node].home(it.asname or asked.name)
                    if scope.kind == "class":
                        raise Lost(f"it is imported into a class in line {node.lineno}")
                    yield scope, it.asname or asked.name


def _is_itself(node: Import, base: Parts, module: Parts) -> bool:
    """Whether an import may bind the module, or what is in it, and not only a package around it."""
    if isinstance(node, ast.ImportFrom) and _is_module(base, module):
        return True
    return any(_is_module((*base, *it.name.split(".")), module) for it in node.names)


def _modules_bound(follower: Follower, node: Import, base: Parts, module: Parts) -> Iterator[Tuple[Scope, str, Parts]]:
    """Yields the names that an import binds to the module, or to a package around it, each with the dotted name of that."""
    scope = follower.names.inside[node]
    for it in node.names:
        found: List[Tuple[str, Parts]] = []
        if it.name == "*":
            found += [(name, (name,)) for name in module[-3:]] if not _is_module(base, module) else []
        elif _is_around((*base, *it.name.split(".")), module):
            is_whole = bool(it.asname) or isinstance(node, ast.ImportFrom)
            first = it.name.partition(".")[0]
            found.append((it.asname or it.name, (*base, *it.name.split("."))) if is_whole else (first, (first,)))
        for name, parts in found:
            home = scope.home(name)
            if home.kind == "class":
                raise Lost(f"its module is imported into a class in line {node.lineno}")
            yield home, name, parts


def _ends_with(parts: Parts, end: Parts) -> bool:
    """Whether the last parts are `end`; False if `end` is empty."""
    return bool(end) and parts[-len(end):] == end


def _is_module(parts: Parts, module: Parts) -> bool:
    """Whether a dotted name may be the module's: whether one of the two ends with the other, and neither is empty."""
    return _ends_with(module, parts) or _ends_with(parts, module)


def _is_around(parts: Parts, module: Parts) -> bool:
    """Whether the module, or a package around it, has a dotted name that may be `parts`."""
    return _ends_with(parts, module) or any(_ends_with(module[:count], parts) for count in range(len(module), 0, -1))


def _base(node: Import, own: Parts, is_package: bool) -> Parts:
    """The dotted name from which a `from` statement imports, relative to `own`, that of the file; () for `import`."""
    if isinstance(node, ast.Import):
        return ()
    base: Parts = tuple(node.module.split(".")) if node.module else ()
    if node.level:
        up = node.level - 1 if is_package else node.level
        base = (*own[:max(0, len(own) - up)], *base)
    return base


_KINDS: Dict[str, Callable[[Follower, Asked], None]] = {
    "module": _module, "attribute": _attribute, "class": _class, "match": _match,
}
