"""Hostile files: reports, settings, configurations, baselines, accepted files, certificates, notebooks and sources."""
from __future__ import annotations

import json
from typing import Any, Dict, List, NamedTuple

from hostile.tree import FINDING

MANY_DIGITS = "9" * 100_000
DEEP = 100_000


class Given(NamedTuple):
    """A file with its name, and whether every reader has to refuse it in one line."""

    name: str
    data: bytes
    refused: bool = False


def entry(**changed: Any) -> Dict[str, Any]:
    """The entry of `FINDING` in a report, with some keys of another value; a value of None leaves the key out."""
    family = {"heads": ['r"0"', 'r"!"'], "pumps": ['r"a"']}
    whole: Dict[str, Any] = {"call": "compile", "column": 12, "family": family, "kind": "exponential", "line": 2,
                             "path": "finding.py"}
    whole.update(changed)
    return {key: value for key, value in whole.items() if value is not None}


def report(*entries: Any, **changed: Any) -> bytes:
    """A report of these entries."""
    whole: Dict[str, Any] = {"entries": list(entries), "findings": len(entries), "refused": 0, "undecided": 0, "version": 2}
    whole.update(changed)
    return json.dumps(whole, sort_keys=True, separators=(",", ":")).encode("ascii") + b"\n"


def _number(text: str) -> bytes:
    """A report whose entry has this text for the number of its line."""
    return report(entry(line=77)).replace(b"77", text.encode("ascii"))


def no_reports() -> List[Given]:
    """What is no report at all, or has a value that relint never writes: each is to be refused."""
    texts = {
        "blank": b" \n", "no-json": b"entries", "null": b"null", "list": b"[]", "object": b"{}", "text": b'"report"',
        "nan": b"NaN", "cut": report(entry())[:-3], "bytes": b"\xff\xfe\x00",
        "nul": b"\0" * 100, "deep-lists": b"[" * DEEP, "deep-objects": b'{"a":' * DEEP, "digits": MANY_DIGITS.encode(),
        "deep-entry": report(entry(family=77)).replace(b"77", b"[" * DEEP + b"]" * DEEP),
        "line-of-many-digits": _number(MANY_DIGITS), "line-minus": _number("-1"), "line-fraction": _number("1.5"),
        "line-nan": _number("NaN"), "line-infinity": _number("1e999"), "line-true": _number("true"),
        "line-zero": _number("0"),
        "line-text": _number('"2"'), "line-list": _number("[2]"), "line-null": _number("null"),
        "line-past-all": _number("9" * 30),
    }
    return [Given(name, data, True) for name, data in texts.items()] + _bad_values()


def _bad_values() -> List[Given]:
    family = {"heads": ['r"0"'], "pumps": ['r"a"']}
    entries: Dict[str, Any] = {
        "entry-null": None, "entry-list": [], "entry-text": "finding.py", "entry-empty": {},
        "path-number": entry(path=1), "path-list": entry(path=["finding.py"]), "path-empty": entry(path=""),
        "path-nul": entry(path="finding.py\0"),
        "kind-unknown": entry(kind="fine"), "kind-list": entry(kind=["degree"]), "kind-escape": entry(kind="\x1b[2J\x1b[H"),
        "call-unknown": entry(call="eval"), "call-escape": entry(call="compile\n::error::forged"),
        "call-list": entry(call=[]),
        "degree-text": entry(kind="degree", degree="3"), "degree-minus": entry(kind="degree", degree=-3),
        "degree-none": entry(kind="degree"), "degree-true": entry(kind="degree", degree=True),
        "cause-escape": entry(kind="refused", family=None, cause="\x1b]0;forged\x07\n::error::forged"),
        "cause-number": entry(kind="refused", family=None, cause=1),
        "limit-escape": entry(kind="undecided", family=None, limit="\n::error::forged", over=1),
        "over-list": entry(kind="undecided", family=None, limit="pairs", over=[]),
        "fault-text": entry(kind="refused", family=None, cause="syntax", fault="1:2"),
        "family-text": entry(family="aaaa"), "family-short": entry(family=family), "family-null-heads": entry(family={}),
        "family-call": entry(family={"heads": ["__import__('os').system('id')", 'r""'], "pumps": ['r"a"']}),
        "family-number": entry(family={"heads": ["1", "2"], "pumps": ["3"]}),
        "family-mixed": entry(family={"heads": ['r"0"', 'b"!"'], "pumps": ['r"a"']}),
        "family-deep": entry(family={"heads": ["(" * 50_000, 'r""'], "pumps": ['r"a"']}),
        "family-minus": entry(family={"heads": ["-" * 100_000 + "1", 'r""'], "pumps": ['r"a"']}),
        "family-sum": entry(family={"heads": ["1" + "+1" * 100_000, 'r""'], "pumps": ['r"a"']}),
        "suggest-number": entry(suggest="1"), "suggest-list": entry(suggest=[]), "suggest-call": entry(suggest="exit()"),
        "becomes-text": entry(suggest='r"a"', becomes="degree"), "dropped-number": entry(dropped=1),
        "dropped-text": entry(dropped=["1"]),
    }
    found = [Given(name, report(it), True) for name, it in entries.items()]
    whole: Dict[str, Dict[str, Any]] = {
        "version-3": {"version": 3}, "version-true": {"version": True}, "version-text": {"version": "2"},
        "entries-object": {"entries": {}}, "entries-text": {"entries": "ab"}, "findings-text": {"findings": "1"},
        "findings-minus": {"findings": -1}, "findings-null": {"findings": None}, "refused-list": {"refused": [1]},
    }
    return found + [Given(name, report(entry(), **it), True) for name, it in whole.items()]


def odd_reports(outside: str) -> List[Given]:
    """Reports of the right form with values that an attacker chose: none may show, open or run what they name."""
    paths = ["/proc/self/environ", "/etc/shadow", "../outside/secret.py", outside, "link_out.py", "link_folder/secret.py",
             "names/../../outside/secret.py", "fifo.py", "/dev/zero", "link_zero.py", "link_environ.py", "socket.py",
             "/dev/stdin", "/dev/fd/0", ".", "vendor", "/proc/self/mem", "locked/file.py", "locked/nosearch/unseen.py",
             "a" * 5000 + ".py",
             "a/" * 3000 + "a.py", "none.py", "names/line\nFORGED end.py", "\r\n::set-output name=forged::1",
             "##[error]forged",
             "\x1b[2Jforged", "\u202egnp.py", "%0A::error::forged", "--output=forged", "-", "finding.py/", "./finding.py"]
    found = [Given("path %r" % path[:40], report(entry(path=path, line=1, column=1))) for path in paths]
    found += [Given("source %r" % path[:40], report(entry(path=path))) for path in paths[:4]]
    long_family = {"heads": ['r"0"', 'r"!"'], "pumps": ['r"%s"' % ("a" * 1_000_000)]}
    escapes = {"heads": ['"\\x1b]0;forged\\x07"', '"\\n::error::forged"'], "pumps": ['"\\u202e"']}
    found += [
        Given("family of a million letters", report(entry(family=long_family))),
        Given("family of escapes", report(entry(family=escapes, suggest='"\\x1b[2J\\n::error::forged"'))),
        Given("utf-16", report(entry()).decode().encode("utf-16")),
        Given("path of a lone surrogate", report(entry(path="\ud800.py"))),
        Given("unknown keys", report(entry(more=1), more=[])),
        Given("place past the end", report(entry(line=9_000, column=9_000))),
        Given("counts that aren't so", report(entry(), findings=77, refused=8)),
        Given("the same key twice", report(entry()).replace(b'"path":', b'"path":"/etc/shadow","path":')),
        Given("a thousand findings", report(*[entry() for _ in range(1000)])),
        Given("many reports", (report(entry()) + b"\n") * 50),
    ]
    return found


def settings() -> List[Given]:
    """Settings files: relint refuses each of them."""
    texts = {
        "no-toml": b"\x1b[2J", "unknown": b"paths = ['/etc']\n", "compile-as": b'compile-as = "eval"\n',
        "list": b"report = [1]\n",
        "digits": b"max-degree = " + MANY_DIGITS.encode() + b"\n", "deep": b"report = " + b"[" * DEEP,
        "deep-key": b"a." * 50_000 + b"b = 1\n", "nul": b"\0\0\0", "bytes": b"report = 2\xff\n",
        "utf-16": "report = 2\n".encode("utf-16"),
        "twice": b"report = 2\nreport = 1\n", "nan": b"max-degree = nan\n", "big": b"# " + b"x" * 3_000_000 + b"\n\x1b",
    }
    return [Given(name, data, True) for name, data in texts.items()]


def configurations() -> List[Given]:
    """Configurations that would write, read or run what they may not, or that aren't in the form: each is refused."""
    texts = {
        "accepted-outside": b'accepted = "../home_bash_profile"\n', "accepted-absolute": b'accepted = "/etc/passwd"\n',
        "accepted-nul": b'accepted = "a\\u0000b"\n', "paths-outside": b'paths = ["../../secret"]\n',
        "paths-absolute": b'paths = ["/etc"]\n', "paths-number": b"paths = 1\n", "takers-outside": b'takers = ["../x.toml"]\n',
        "takers-absolute": b'takers = ["/etc/passwd"]\n', "exclude-text": b'exclude = "x"\n',
        "max-degree-minus": b"max-degree = -1\n", "max-pairs-zero": b"max-pairs = 0\n", "jobs-text": b'jobs = "9"\n',
        "seconds-minus": b"seconds = -1\n", "strict-number": b"strict = 1\n", "format": b'format = "html"\n',
        "write": b'write = ["html=../x"]\n', "escape": b'"\\u001b[2J" = 1\n',
        "accepted-in-git": b'accepted = ".git/hooks/post-commit"\n',
        "paths-in-git": b'paths = [".GIT/config"]\n', "exclude-long": b'exclude = ["' + b"*a" * 300_000 + b'"]\n',
    }
    return [Given(name, data, True) for name, data in texts.items()]


def accepted() -> List[Given]:
    """Accepted files that aren't in the form."""
    names = ("no-json", "null", "list", "cut", "bytes", "nul", "deep-lists", "deep-objects", "digits", "nan")
    rows = {
        "row-null": b'{"accepted": [null], "version": 1}', "row-number": b'{"accepted": [1], "version": 1}',
        "row-empty": b'{"accepted": [{}], "version": 1}', "version-9": b'{"accepted": [], "version": 9}',
        "path-number": b'{"accepted": [{"path": 1, "pattern": "r\\"a\\"", "mode": "search",'
                       b' "class": "exponential"}], "version": 1}',
    }
    return [it for it in no_reports() if it.name in names] + [Given(name, data, True) for name, data in rows.items()]


def baselines() -> List[Given]:
    """Baselines that are none; what is no report is one of them."""
    names = ("blank", "null", "cut", "bytes", "nul", "deep-lists", "deep-objects", "digits", "deep-entry", "version-3",
             "entries-text", "line-of-many-digits")
    return [it for it in no_reports() if it.name in names]


def certificates() -> List[Given]:
    """Certificates that prove nothing."""
    texts = {
        "empty": b"", "null": b"null", "list": b"[]", "object": b"{}", "deep": b"[" * DEEP, "digits": MANY_DIGITS.encode(),
        "nul": b"\0", "bytes": b"\xff", "nan": b'{"version":NaN}', "cut": b'{"class":"degree","degree":1',
        "twice": b'{"version":1,"version":1}',
    }
    return [Given(name, data, True) for name, data in texts.items()]


def _notebook(source: Any) -> bytes:
    cell = {"cell_type": "code", "source": source, "metadata": {}, "outputs": [], "execution_count": None}
    return json.dumps({"cells": [cell], "metadata": {}, "nbformat": 4, "nbformat_minor": 5}).encode("ascii")


def notebooks() -> List[Given]:
    """Notebooks: each is a file that a reader may be given by its name."""
    texts: Dict[str, Any] = {
        "plain": FINDING.splitlines(True), "magic": ["%%bash\n", ": >magic\n", "!: >magic\n"],
        "surrogate": ["x = '\ud800'\n"],
        "number": 7, "deep": [[["x"]]], "escape": ["\x1b]0;forged\x07\n::error::forged\n"],
    }
    found = [Given(name, _notebook(source)) for name, source in texts.items()]
    found += [Given("deep-lists", b"[" * DEEP), Given("digits", MANY_DIGITS.encode()), Given("nan", b'{"cells": NaN}'),
              Given("null", b"null"), Given("nul", b"\0" * 1000)]
    return found


def _source(head: str, behind: str = "") -> bytes:
    return (head + "\n" + FINDING + behind + "\n").encode("utf-8")


def sources() -> List[Given]:
    """Sources that parsers choke on, each with a finding."""
    many = 200_000
    texts: Dict[str, bytes] = {
        "sum": _source("x = 1" + "+1" * many), "power": _source("x = 1" + "**1" * many),
        "brackets": _source("x = " + "(" * 5000 + ")" * 5000),
        "open": _source("x = " + "[" * many), "minus": _source("x = " + "-" * many + "1"),
        "not": _source("x = " + "not " * 50_000 + "x"),
        "attributes": _source("x = a" + ".a" * many), "calls": _source("x = a" + "()" * many),
        "lambdas": _source("x = " + "lambda: " * 20_000 + "0"),
        "comparisons": _source("x = 1" + " < 1" * many), "strings": _source("x = ''" + " ''" * many),
        "else": _source("x = 0" + " if 0 else 0" * 30_000),
        "indents": _source("\n".join(" " * it + "if 1:" for it in range(99))), "digits": _source("x = " + "9" * many),
        "subscripts": _source("x = a" + "[0]" * many), "f-strings": _source("x = " + "f'{" * 100 + "0" + "}'" * 100),
        "decorators": _source("@a\n" * 50_000), "commas": _source("x = (" + "0," * many + ")"),
        "semicolons": _source("0;" * many + "0"),
        "in-the-call": b"import re\nre.compile(r'(a|a)*b', " + b"1+" * many + b"1)\n",
        "pattern-deep": ("import re\nre.compile(r'" + "(" * 5000 + ")" * 5000 + "')\n").encode(),
        "pattern-joined": ("import re\nre.compile(" + "'(a|a)*'" * 20_000 + "'b')\n").encode(),
        "nul": _source("x = '\0'"), "nuls": b"\0" * 1000, "form-feed": _source("\f\fx = 1\f"),
        "bom": b"\xef\xbb\xbf" + _source(""),
        "bom-twice": b"\xef\xbb\xbf" * 2 + _source(""), "utf-16": _source("").decode().encode("utf-16"),
        "latin": b"# \xe9\n" + _source(""),
        "returns": _source("x = 1").replace(b"\n", b"\r"), "end-of-file": _source("x = 1\x1a"),
        "escape": _source("# \x1b]0;forged\x07\n::error::forged"),
        "surrogate": b"x = '\xed\xa0\x80'\n" + _source(""), "overlong": b"x = '\xc0\xaf'\n" + _source(""),
        "long-line": _source("x = 0 # " + "x" * 1_000_000), "type": _source("type X[T] = " + "X[" * 3000 + "]" * 3000),
        "match": _source("match x:\n case " + "[" * 3000 + "]" * 3000 + ": pass"),
    }
    codings = ("utf-7", "rot13", "idna", "punycode", "undefined", "unicode_escape", "raw_unicode_escape", "zlib", "mbcs",
               "x\x1b[2J")
    for name in codings:
        texts["coding-" + name] = _source("# -*- coding: %s -*-" % name)
    return [Given(name, data) for name, data in texts.items()]
