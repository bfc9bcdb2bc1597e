"""Folding expressions of sources to patterns: what is known, and above all what isn't."""
from __future__ import annotations

import fnmatch
import textwrap
import unittest
from itertools import product
from typing import Dict, List, Tuple

from relint.base.model import Text
from relint.code.fold import Folder, Sources
from relint.code.places import Found, Takers, own_rows, places_in, takers_of
from relint.code.source import SourceError, Unit
from relint.code.texts import Known as Value
from relint.code.texts import Need, NotKnown, formatted
from relint.code.writes import Changes

TAKERS = Takers(takers_of(own_rows()), True)


class Files:
    """Sources by path, in memory."""

    def __init__(self, files: Dict[str, str]) -> None:
        self.data = {path: textwrap.dedent(text).encode() for path, text in files.items()}
        self.units: Dict[str, Unit] = {}

    def unit(self, path: str) -> Unit:
        """Returns the source at a path."""
        if path not in self.data:
            raise SourceError("it isn't there")
        if path not in self.units:
            self.units[path] = Unit(path, self.data[path])
        return self.units[path]

    def found(self, path: str) -> List[Found]:
        """Returns what is found in a source, without what other files change."""
        return places_in(self.unit(path), TAKERS, Folder(Sources(self.unit)))

    def changed(self, needs: Tuple[Need, ...]) -> bool:
        """Returns whether another file may change what a pattern needs."""
        changes = Changes(needs)
        return any(changes.of(self.unit(path), changes.candidates(path, data)) for path, data in self.data.items())

    def patterns(self, path: str) -> List[object]:
        """Returns the patterns that are known in a source, with all other files taken into account."""
        return [it.site.pattern for it in self.found(path) if it.site is not None and not self.changed(it.needs)]


class One:
    """A place, with what is known of it."""

    def __init__(self, found: Found) -> None:
        site = found.site
        self.pattern, self.flags = (site.pattern, site.flags) if site else (None, None)
        self.holders, self.notes = (site.holders, site.notes) if site else ((), ())
        self.start, self.end, self.why, self.is_literal = found.place, found.end, found.why, found.is_literal


def found_in(source: str, **others: str) -> List[One]:
    """What is found in a source, beside other files of its package."""
    files = {f"pkg/{name}.py": text for name, text in others.items()}
    files["pkg/__init__.py"] = files.get("pkg/__init__.py", "")
    return [One(it) for it in Files({**files, "pkg/main.py": source}).found("pkg/main.py")]


def only(source: str, **others: str) -> One:
    """The one pattern of a source that isn't a whole literal."""
    its = [it for it in found_in("import re\n" + textwrap.dedent(source), **others) if not it.is_literal]
    assert len(its) == 1, its
    return its[0]


# Sources whose last call has this pattern.
KNOWN: Tuple[Tuple[str, Text], ...] = (
    ("P = 'a'\nP = 'b'\nre.compile(P)", "b"), ("P = 'a'\nP += 'b'\nP = P * 2\nre.compile(P)", "abab"),
    ("P = 'a'\nfor x in (1,):\n    re.compile(P)\nP = 'b'", "a"),
    ("P = 'a'\nF = re.I\nF |= re.M\nre.compile(P, F)", "a"),
    ("L = ['x']\nL = ['a', 'b']\nre.compile('|'.join(L))\nL = []", "a|b"),
    ("T = dict(a='b', c='d')\nre.compile('%(c)s%(a)s' % T)", "db"), ("re.compile(''.join(dict(a=1, b=2)))", "ab"),
    ("import string\nre.compile(f'[{string.digits}]')", "[0123456789]"),
    ("from string import ascii_lowercase as low\nre.compile(low[:3])", "abc"),
    ("P = r'a+'\nre.compile(P)", "a+"),
    ("P: str = 'a'\nre.compile(P)", "a"),
    ("P = Q = 'a'\nre.compile(Q)", "a"),
    ("P, Q = 'a', 'b'\nre.compile(Q)", "b"),
    ("P = 'a' 'b'\nre.compile(P + 'c')", "abc"),
    ("re.compile('a' + 'b' * 3)", "abbb"),
    ("W = r'\\w+'\nre.compile('^%s$' % W)", r"^\w+$"),
    ("W = 'a'\nre.compile('%s-%s%%' % (W, 'b'))", "a-b%"),
    ("re.compile('a{%d}' % 3)", "a{3}"),
    ("W = b'\\xff|b'\nre.compile(b'(%s)%b{%d}%%' % (W, b'c', 3))", b"(\xff|b)c{3}%"),
    ("re.compile('%(one)s' % {'one': 'a'})", "a"),
    ("W = 'a'\nre.compile('{0}{{2}}{0}'.format(W))", "a{2}a"),
    ("W = 'a'\nre.compile('{w}|{}'.format('b', w=W))", "a|b"),
    ("re.compile('{w}{{{}}}{!r}'.format(2, 'b', w='a'))", "a{2}'b'"),
    ("W = 'a'\nre.compile(f'^{W}{{2}}$')", "^a{2}$"),
    ("N = 3\nre.compile(f'a{{{N}}}')", "a{3}"),
    ("WORDS = ('a', 'b')\nre.compile('|'.join(WORDS))", "a|b"),
    ("WORDS = ['a.', 'b']\nre.compile('|'.join(re.escape(it) for it in WORDS))", r"a\.|b"),
    ("WORDS = ['a.', 'b']\nre.compile('|'.join(map(re.escape, WORDS)))", r"a\.|b"),
    ("D = {'a': 'x', 'b': 'y'}\nre.compile('|'.join(D))", "a|b"),
    ("D = {'a': 'x', 'b': 'y'}\nre.compile('|'.join(D.values()))", "x|y"),
    ("D = {'a': 'x'}\nre.compile(D['a'])", "x"),
    ("WORDS = ['b', 'a']\nre.compile('|'.join(sorted(WORDS)))", "a|b"),
    ("WORDS = ('a', 'b')\nre.compile(WORDS[-1] + WORDS[0])", "ba"),
    ("P = 'abc'\nre.compile(P[1:])", "bc"),
    ("re.compile(re.escape('a.b') + '+')", r"a\.b+"),
    ("import textwrap\nP = '''\n    a\n      b\n'''\nre.compile(textwrap.dedent(P), re.X)", "\na\n  b\n"),
    ("from textwrap import dedent\nre.compile(dedent('  a'))", "a"),
    ("P = 'a'\nre.compile(P.encode('ascii'))", b"a"),
    ("P = b'a'\nre.compile(P + b'b')", b"ab"),
    ("P = 'a-b'\nre.compile(P.replace('-', '+'))", "a+b"),
    ("class A:\n    P = 'a'\n    Q = re.compile(P)", "a"),
    ("class A:\n    P = 'a'\n    def f(self):\n        return re.search(self.P, 'x')", "a"),
    ("class A:\n    P = 'a'\n    @classmethod\n    def f(cls):\n        return re.search(cls.P, 'x')", "a"),
    ("class A:\n    P = 'a'\nre.compile(A.P)", "a"),
    ("class B:\n    P = 'a'\nclass A(B):\n    def f(self):\n        re.compile(self.P)", "a"),
    ("class A:\n    def __init__(self):\n        self.p = 'a'\n    def f(self):\n        re.compile(self.p)", "a"),
    ("from enum import Enum\nclass E(Enum):\n    P = 'a'\nre.compile(E.P.value)", "a"),
    ("def f():\n    p = 'a'\n    return re.compile(p)", "a"),
    ("def f():\n    p = 'a'\n    def g():\n        return re.compile(p)\n    return g", "a"),
    ("P = 'a'\nclass A:\n    P = 'b'\n    def f(self):\n        re.compile(P)", "a"),
    ("P = 'a'\ndef f(it):\n    return [re.compile(P) for it in it]", "a"),
    ("def f():\n    global P\n    P = 'a'\ndef g():\n    re.compile(P)", "a"),
    ("if True:\n    P = 'a'\nre.compile(P)", "a"),
    ("c = re.compile\nP = 'a'\nc(P)", "a"),
    ("from re import compile as c, I\nP = 'a'\nc(P, I)", "a"),
    ("P = 'a'\ndef f():\n    import re as r\n    r.search(P, 'x')", "a"),
    ("P = 'a'\nre.sub(pattern=P, repl='', string='')", "a"),
    ("P = [*('a', 'b'), 'c']\nre.compile(''.join(P))", "abc"),
)

# Sources whose call has no pattern that is known, with the reason.
UNKNOWN: Tuple[Tuple[str, str], ...] = (
    ("def f(p):\n    re.compile(p)", "parameter"),
    ("P = 'a'\ndef f(P):\n    re.compile(P)", "parameter"),
    ("P = 'a'\nf = lambda P: re.compile(P)", "parameter"),
    ("P = 'a'\ndef f(*P):\n    re.compile(P)", "parameter"),
    ("P = 'a'\nP = 'b'\ndef f():\n    re.compile(P)", "bound more than once"),
    ("for x in y:\n    re.compile(P)\n    P = 'a'\n    P = 'b'", "bound more than once"),
    ("P = 'a'\nif x:\n    P = 'b'\nre.compile(P)", "bound more than once"),
    ("P = 'a'\nfor P in ('b', 'c'):\n    re.compile(P)", "bound more than once"),
    ("P = 'a'\nfor x in y:\n    re.compile(P)\n    P = 'b'", "bound more than once"),
    ("P = 'a'\nP = P.parent\nP += 'c'\nre.compile(P)", "attribute"),
    ("P = ['a']\nP += ['b']\nre.compile('|'.join(P))", "changed in place"),
    ("P = 'a'\nQ = P\nP -= 1\nre.compile(P)", "operator"),
    ("def f(p):\n    p = 'a'\n    re.compile(p)", "parameter"),
    ("import fnmatch\nre.compile(fnmatch.translate('a*b*c'))", "glob that versions of Python translate in different ways"),
    ("import fnmatch\nre.compile(fnmatch.translate('[a-c]'))", "glob that versions of Python translate in different ways"),
    ("re.compile(dict(a='b', **x)['a'])", "call"), ("re.compile(dict(x, a='b')['a'])", "call"),
    ("P = 'a'\ndel P\nre.compile(P)", "bound more than once"),
    ("P = 'a'\ndef f():\n    global P\n    P = 'b'\nre.compile(P)", "bound more than once"),
    ("def f():\n    p = 'a'\n    def g():\n        nonlocal p\n        p = 'b'\n    re.compile(p)", "bound more than once"),
    ("try:\n    P = 'a'\nexcept E:\n    P = 'b'\nre.compile(P)", "bound more than once"),
    ("for P in x:\n    re.compile(P)", "loop"),
    ("P = 'a'\nfor P in x:\n    pass\nre.compile(P)", "bound more than once"),
    ("[re.compile(P) for P in x]", "loop"),
    ("P = 'a'\n[re.compile(P) for P in x]", "loop"),
    ("with x as P:\n    re.compile(P)", "with"),
    ("try:\n    pass\nexcept E as P:\n    re.compile(P)", "match"),
    ("P = P + 'a'\nre.compile(P)", "recursion"),
    ("A = B + 'a'\nB = A + 'b'\nre.compile(A)", "recursion"),
    ("re.compile(P)", "not bound"),
    ("from elsewhere import P\nre.compile(P)", "import from outside"),
    ("P = 'a'\nfrom elsewhere import *\nre.compile(P)", "star import"),
    ("from elsewhere import *\nre.compile(P)", "star import"),
    ("def P():\n    pass\nre.compile(P)", "function"),
    ("class P:\n    pass\nre.compile(P)", "class"),
    ("re.compile(f())", "call"),
    ("re.compile(x.y)", "attribute"),
    ("W = 'a'\nre.compile('%5s' % W)", "formatting with a width"),
    ("W = 'a'\nre.compile(f'{W:>5}')", "formatting with a width"),
    ("W = 'a'\nre.compile('{:>5}'.format(W))", "formatting with a width"),
    ("re.compile('%s %s' % ('a',))", "formatting that fails"),
    ("re.compile('{} {0}'.format('a'))", "formatting that fails"),
    ("W = 'a'\nre.compile('{0}{{2}}{}'.format(W))", "formatting that fails"),
    ("re.compile('{!r}{w}{0!s}'.format('a', w='b'))", "formatting that fails"),
    ("re.compile(b'%s' % 'a')", "formatting of other kinds"),
    ("re.compile(b'%r' % b'a')", "formatting with a width"),
    ("re.compile(b'%(a)s' % {b'a': b'b'})", "% of other kinds"),
    ("W = ['a']\nW.append('b')\nre.compile('|'.join(W))", "changed in place"),
    ("W = ['a']\nW[0] = 'b'\nre.compile('|'.join(W))", "changed in place"),
    ("W = {'a': 'b'}\nW.update(x)\nre.compile('|'.join(W))", "changed in place"),
    ("W = {'a', 'b'}\nre.compile('|'.join(W))", "expression"),
    ("P = x or 'b'\nre.compile(P)", "choice"),
    ("P = 'a'\nglobals()['P'] = 'b'\nre.compile(P)", "names set by exec or globals()"),
    ("P = 'a'\nexec('P = 1')\nre.compile(P)", "names set by exec or globals()"),
    ("class A:\n    P = 'a'\n    def f(self):\n        self.P = 'b'\n        re.compile(self.P)", "attribute that is set"),
    ("class A:\n    P = 'a'\nsetattr(A, 'P', 'b')\nre.compile(A.P)", "attribute that is set"),
    ("class A:\n    @staticmethod\n    def f(self):\n        re.compile(self.P)\n    P = 'a'", "attribute"),
    ("class A:\n    re.compile(P)\n    P = 'b'\nP = 'a'", "bound later or in a branch"),
    ("P = 'a'\nclass A:\n    if x:\n        P = 'b'\n    re.compile(P)", "bound later or in a branch"),
    ("from enum import Enum\nclass E(Enum):\n    P = 'a'\nre.compile(E.P)", "attribute of a base class"),
    ("P = 'a'\nre.compile(P, f())", "flags: call"),
    ("P = 'a' * 200000\nre.compile(P)", "too large"),
    ("A = 'aaaa'\n" + "".join(f"{b} = {a} * 9\n" for a, b in zip("ABCDEFG", "BCDEFGH")) + "re.compile(H)", "too large"),
    ("re.compile(''.join(range(18446744073709551615)))", "too large"),
    ("re.compile(''.join(range(0, -18446744073709551615, -1)))", "too large"),
    ("re.compile(''.join(sorted(['a', b'b'])))", "expression that fails"),
    ("W = sorted(['a', b'b'])\nre.compile(W[0])", "expression that fails"),
    ("re.compile('' * 18446744073709551616)", "expression that fails"),
    ("re.compile('a' * -18446744073709551616)", "expression that fails"),
    ("re.compile(''.join([] * 18446744073709551616))", "expression that fails"),
    ("re.compile('{²}'.format('a'))", "expression that fails"),
    ("P = 'a'\nre.compile(P, '' * 18446744073709551616)", "flags: expression that fails"),
    ("P = 3\nre.compile(P)", "not a text"),
    ("re.compile()", "no pattern argument"),
    ("re.compile(*x)", "no pattern argument"),
)


# Sources whose last call has each of these patterns, in turn.
EACH: Tuple[Tuple[str, Tuple[Text, ...]], ...] = (
    ("if x:\n    P = 'a'\nelse:\n    P = 'b'\nre.compile(P)", ("a", "b")),
    ("if x:\n    P, Q = 'a', 'c'\nelif y:\n    P, Q = 'b', 'd'\nelse:\n    P = Q = 'e'\nre.compile(P + Q)",
     ("ac", "bd", "ee")),
    ("P = 'a' if x else 'b'\nre.compile(P)", ("a", "b")),
    ("for w in ('a', 'b'):\n    re.compile(w)", ("a", "b")),
    ("for w in ['a', 'b']:\n    re.compile(w + 'c')", ("ac", "bc")),
    ("for w in {'a', 'b'}:\n    re.compile(w)", ("a", "b")),
    ("W = ('a', 'b')\nfor w in W:\n    re.compile(f'^{w}$')", ("^a$", "^b$")),
    ("W = ('a', 'b')\ndef f(s):\n    for w in W:\n        if re.match(w, s):\n            return w", ("a", "b")),
    ("W = ('a', 'b')\ndef f(s):\n    for w in W:\n        m = re.match(w, s)\n        if m:\n            break", ("a", "b")),
    ("for w in ('a', 'b'):\n    p = '^' + w\n    re.compile(p)", ("^a", "^b")),
    ("for w in ('a', 'b'):\n    p = '^' + w\n    q = p + '$'\n    re.compile(q)", ("^a$", "^b$")),
    ("for n, w in (('x', 'a'), ('y', 'b')):\n    re.compile(w)", ("a", "b")),
    ("for n, (w, v) in (('x', ('a', 'c')), ('y', ('b', 'd'))):\n    re.compile(w + v)", ("ac", "bd")),
    ("for w in {'a': 'x', 'b': 'y'}:\n    re.compile(w)", ("a", "b")),
    ("for w in {'a': 'x', 'b': 'y'}.values():\n    re.compile(w)", ("x", "y")),
    ("D = {'a': 'x', 'b': 'y'}\nfor k, w in D.items():\n    re.compile(k + w)", ("ax", "by")),
    ("for n, w in enumerate(('a', 'b')):\n    re.compile(w * n + 'c')", ("c", "bc")),
    ("for w in reversed(['a', 'b']):\n    re.compile(w)", ("b", "a")),
    ("for w, v in zip(('a', 'b'), ('c', 'd')):\n    re.compile(w + v)", ("ac", "bd")),
    ("for n in range(1, 4):\n    re.compile('a{%d}' % n)", ("a{1}", "a{2}", "a{3}")),
    ("for w in 'ab':\n    re.compile(w)", ("a", "b")),
    ("for w in ('a', 'a', 'b'):\n    re.compile(w)", ("a", "b")),
    ("for w in ('a', 'b'):\n    for v in ('c', 'd'):\n        re.compile(w + v)", ("ac", "ad", "bc", "bd")),
    ("for w in (('a', 'b'), ('c',)):\n    for v in w:\n        re.compile(v)", ("a", "b", "c")),
    ("for w in (('a', 'b'), ('c',)):\n    [re.compile(v) for v in w]", ("a", "b", "c")),
    ("for w in (('a', 'b'), ('c',)):\n    re.compile('|'.join(v for v in w))", ("a|b", "c")),
    ("[re.compile(w) for w in ('a', 'b')]", ("a", "b")),
    ("{w: re.compile(v) for w, v in {'a': 'x', 'b': 'y'}.items()}", ("x", "y")),
    ("W = ('a', 'b')\nP = tuple(re.compile(w) for w in W)", ("a", "b")),
    ("[re.compile(w + v) for w in ('a', 'b') for v in (w, 'c')]", ("aa", "ac", "bb", "bc")),
    ("def f(s):\n    return any(re.search(re.escape(w), s) for w in ('a.', 'b'))", (r"a\.", "b")),
    ("class A:\n    W = ('a', 'b')\n    def f(self):\n        for w in self.W:\n            re.compile(w)", ("a", "b")),
    ("class A:\n    W = ('a', 'b')\n    P = [re.compile(w) for w in W]", ("a", "b")),
    ("w = 'c'\nfor v in [w for w in ('a', 'b')]:\n    re.compile(v + w)", ("ac", "bc")),
    ("for w in ('a', 'b'):\n    if s:\n        re.compile(w)", ("a", "b")),
    ("for w in ('a', 'b'):\n    class A:\n        P = w\n    re.compile(A.P)", ("a", "b")),
)

# Places in loops that may not take each item, or other values, with the reason.
NOT_EACH: Tuple[Tuple[str, str], ...] = (
    ("for w in ('a', 'b'):\n    pass\nre.compile(w)", "loop"),
    ("for w in ('a', 'b'):\n    pass\nelse:\n    re.compile(w)", "loop"),
    ("for w in ('a', 'b'):\n    p = w\nre.compile(p)", "loop"),
    ("for w in ('a', 'b'):\n    re.compile(p)\n    p = w", "loop"),
    ("for w in ('a', 'b'):\n    w = 'c'\n    re.compile(w)", "bound more than once"),
    ("for w in ('a', 'b'):\n    w += 'c'\n    re.compile(w)", "bound more than once"),
    ("for w in ('a', 'b'):\n    re.compile(w)\nfor w in ('c',):\n    pass", "bound more than once"),
    ("for w in ('a', 'b'):\n    (w := 'c')\n    re.compile(w)", "bound more than once"),
    ("for w in ('a', 'b'):\n    with x as w:\n        re.compile(w)", "bound more than once"),
    ("for w in ('a', 'b'):\n    def f():\n        global w\n        w = 'c'\n    re.compile(w)", "bound more than once"),
    ("def f():\n    global w\n    for w in ('a', 'b'):\n        g()\n        re.compile(w)", "loop"),
    ("def f(w):\n    def g():\n        nonlocal w\n        for w in ('a', 'b'):\n            re.compile(w)", "parameter"),
    ("class A:\n    W = ('a', 'b')\n    P = [re.compile(w) for x in 'xy' for w in W]", "loop"),
    ("class A:\n    P = 'x'\n    Q = [re.compile(P + w) for w in ('a', 'b')]", "not bound"),
    ("for w in ('a', 'b'):\n    def f():\n        return re.compile(w)", "loop"),
    ("for w in ('a', 'b'):\n    x.append(lambda: re.compile(w))", "loop"),
    ("for w in ('a', 'b'):\n    x.append(re.compile(w + v) for v in ('c', 'd'))", "loop"),
    ("for w in ('a', 'b'):\n    if w != 'b':\n        re.compile(w)", "loop with a test on its variable"),
    ("for w in ('a', 'b'):\n    if skip(w):\n        continue\n    re.compile(w)", "loop with a test on its variable"),
    ("for w in ('a', 'b'):\n    re.compile(w)\n    if w == 'a':\n        break", "loop with a test on its variable"),
    ("for w in ('a', 'b'):\n    w == 'a' or re.compile(w)", "loop with a test on its variable"),
    ("for w in ('a', 'b'):\n    x = re.compile(w) if w > 'a' else 1", "loop with a test on its variable"),
    ("for k, w in (('x', 'a'), ('y', 'b')):\n    if k == 'x':\n        re.compile(w)", "loop with a test on its variable"),
    ("for w in ('a', 'b'):\n    if w != 'b' and re.match(w, s):\n        pass", "loop with a test on its variable"),
    ("[re.compile(w) for w in ('a', 'b') if w != 'b']", "loop with a test on its variable"),
    ("for w in ('a', 'b'):\n    re.compile(w)\n    break", "loop"),
    ("def f():\n    for w in ('a', 'b'):\n        return re.compile(w)", "loop"),
    ("for w in ('a', x):\n    re.compile(w)", "loop"),
    ("for w in ('a', 3):\n    re.compile(w)", "not a text"),
    ("for w in ():\n    re.compile(w)", "loop over nothing"),
    ("for w in W:\n    re.compile(w)\nW = ('a',)\nW = ('b',)", "loop"),
    ("W = ['a']\nfor w in W:\n    W.append('b')\n    re.compile(w)", "loop"),
    ("W = ['a']\nV = W\nfor w in V:\n    V.append('b')\n    re.compile(w)", "loop"),
    ("W = ['a']\nV = W\nV.append('b')\nfor w in W:\n    re.compile(w)", "loop"),
    ("for w in (['a'], ['b']):\n    w.append('c')\n    re.compile(''.join(w))", "changed in place"),
    ("W = [['a'], ['b']]\nfor w in W:\n    w.append('c')\nre.compile(''.join(W[0]))", "changed in place"),
    ("W = [['a'], ['b']]\nW[0].append('c')\nre.compile(''.join(W[0]))", "changed in place"),
    ("for n, w in (('x', 'a'), ('y', 'b', 'c')):\n    re.compile(w)", "loop"),
    ("for n, *w in (('x', 'a'), ('y', 'b')):\n    re.compile(w[0])", "loop"),
    ("for x.w in ('a', 'b'):\n    re.compile(x.w)", "attribute"),
    ("for w in w:\n    re.compile(w)", "loop"),
    ("for w in v:\n    for v in w:\n        re.compile(v)", "loop"),
    ("[re.compile(a) for x in y for a in b for b in a]", "too deep"),
    ("async def f():\n    async for w in ('a', 'b'):\n        re.compile(w)", "loop"),
    ("exec('w = 1')\nfor w in ('a', 'b'):\n    re.compile(w)", "names set by exec or globals()"),
    ("def enumerate(x):\n    return ()\nfor n, w in enumerate(('a', 'b')):\n    re.compile(w)", "loop"),
    ("for w in range(9 ** 9):\n    re.compile(str(w))", "loop"),
    ("for w in range(18446744073709551615):\n    re.compile(str(w))", "loop"),
    ("for w in sorted(['a', b'b']):\n    re.compile(w)", "loop"),
    ("for w in ('a', 'b'):\n    re.compile(w * -18446744073709551616)", "expression that fails"),
    ("for w in 'a' * 65:\n    re.compile(w)", "loop over more than 64 values"),
    ("for v in 'abcdefghi':\n    for w in 'abcdefghi':\n        re.compile(v + w)", "loop over more than 64 values"),
    ("for w in ('a' * 60000, 'b'):\n    re.compile(w * 2)", "too large"),
)


class Known(unittest.TestCase):
    """What is folded."""

    def test_patterns(self) -> None:
        for source, pattern in KNOWN:
            with self.subTest(source=source):
                found = only(source)
                self.assertEqual((found.pattern, found.why), (pattern, ""))

    def test_value_is_that_of_python(self) -> None:
        for source, pattern in KNOWN:
            if "def " in source or "class" in source:
                continue
            with self.subTest(source=source):
                taken: List[Text] = []
                names: Dict[str, object] = {"keep": lambda it, *_: taken.append(it)}
                exec("import re\n" + source.replace("re.compile(", "keep("), names)
                self.assertEqual(taken or [pattern], [pattern])

    def test_globs(self) -> None:
        for glob in ("*.py[co]", "a?b", "[!x].*", "**", "a-b"):
            found = only(f"import fnmatch\nre.compile(fnmatch.translate({glob!r}))").pattern
            # (the newest Python has another name for the end)
            self.assertEqual(found, fnmatch.translate(glob).replace("\\z", "\\Z"))

    def test_flags(self) -> None:
        for words, flags in (
            ("re.I", 2), ("re.IGNORECASE | re.M", 10), ("F", 24), ("0", 0), ("flags=F | re.X", 88), ("re.RegexFlag.S", 16),
        ):
            with self.subTest(words=words):
                self.assertEqual(only(f"P = 'a'\nF = re.M | re.S\nre.compile(P, {words})").flags, flags)

    def test_flags_of_sub_are_its_fifth_argument(self) -> None:
        self.assertEqual(only("P = 'a'\nre.sub(P, '', 'x', 0, re.I)").flags, 2)

    def test_names_are_told_with_their_lines(self) -> None:
        found = only("A = 'a'\nB = A + 'b'\nre.compile(B)")
        self.assertEqual([(it.name, it.path, it.line) for it in found.holders],
                         [("B", "pkg/main.py", 3), ("A", "pkg/main.py", 2)])

    def test_place_is_that_of_the_first_literal(self) -> None:
        found = only("A = 'a'\né = re.compile('é' 'b'\n  + A)")
        self.assertEqual((found.start.line, found.start.column, found.end.line, found.end.column), (3, 16, 4, 6))

    def test_stand_in_is_said(self) -> None:
        found = only("def f(name):\n    re.compile('^' + re.escape(name) + r'\\w+')")
        self.assertEqual(found.pattern, r"^word\w+")
        self.assertEqual(found.notes, ("with 'word' for re.escape(name)",))

    def test_stand_in_for_several(self) -> None:
        found = only("def f(names):\n    re.compile('|'.join(re.escape(it) for it in names))")
        self.assertEqual(found.pattern, "word|text")
        self.assertIn("re.escape(it)", found.notes[0])


class Unknown(unittest.TestCase):
    """What isn't folded, as it may have another value."""

    def test_reasons(self) -> None:
        for source, why in UNKNOWN:
            with self.subTest(source=source):
                found = only(source)
                self.assertEqual((found.pattern, found.why), (None, why))

    def test_match_captures(self) -> None:
        try:
            found = only("match x:\n    case P:\n        re.compile(P)")
        except SourceError:
            self.skipTest("this Python has no match")
        self.assertEqual(found.why, "match")

    def test_work_on_one_file_is_limited(self) -> None:
        names = "".join(f"A{it} = [*A{it - 1}, *A{it - 1}]\n" for it in range(1, 30))
        found = only("A0 = ['a']\n" + names + "re.compile(''.join(A29))")
        self.assertIn(found.why, ("too large", "too much work", "too deep"))

    def test_a_long_sum_isnt_deep(self) -> None:
        self.assertEqual(only("P = " + " + ".join(["'a'"] * 500) + "\nre.compile(P)").pattern, "a" * 500)

    def test_nested_deep(self) -> None:
        self.assertEqual(only("P = 'a'\nre.compile(" + "(P + " * 70 + "'b'" + ")" * 70 + ")").why, "too deep")


class Formats(unittest.TestCase):
    """`formatted` beside `str.format`, over all texts that are put together from a few pieces."""

    PIECES = ("{", "}", "{}", "{0}", "{1!s}", "{w}", "{!r}", "{!x}", "{2}", "{:", "{:{}}", "{0:>5}", "{{", "}}", "!", "a")

    def test_a_text_that_is_known_is_that_of_python(self) -> None:
        parts, named = [Value("P"), Value("Q")], {"w": Value("W")}
        for pieces in (it for count in range(4) for it in product(self.PIECES, repeat=count)):
            form = "".join(pieces)
            try:
                found = formatted(Value(form), parts, named).value
            except NotKnown:
                continue
            with self.subTest(form=form):
                self.assertEqual(found, form.format("P", "Q", w="W"))


class Loops(unittest.TestCase):
    """Loops over known items: each item gives a pattern of its own, or none is known."""

    def patterns(self, source: str) -> List[object]:
        """The patterns of a source's calls that aren't literals."""
        found = [it for it in found_in("import re\n" + source) if not it.is_literal]
        self.assertEqual([it.why for it in found], [""] * len(found))
        return [it.pattern for it in found]

    def test_each_item(self) -> None:
        for source, patterns in EACH:
            with self.subTest(source=source):
                self.assertEqual(self.patterns(source), list(patterns))

    def test_items_are_those_of_python(self) -> None:
        for source, patterns in EACH:
            if any(it in source for it in ("def ", "class", "s:", "if x")):
                continue
            with self.subTest(source=source):
                taken: List[Text] = []
                exec("import re\n" + source.replace("re.compile(", "keep("), {"keep": lambda it: taken.append(it)})
                self.assertEqual(set(taken), set(patterns))

    def test_places_that_may_not_take_each_item(self) -> None:
        for source, why in NOT_EACH:
            with self.subTest(source=source):
                found = only(source)
                self.assertEqual((found.pattern, found.why), (None, why))

    def test_item_and_name_are_told(self) -> None:
        first, second = (it for it in found_in("import re\nW = ('a', 'b')\nfor w in W:\n    re.compile(w)\n"))
        self.assertEqual(first.notes, ("item 1 of 2 of the loop in line 3",))
        self.assertEqual(second.notes, ("item 2 of 2 of the loop in line 3",))
        self.assertEqual([(it.name, it.line) for it in second.holders], [("w", 3), ("W", 2)])

    def test_pattern_and_flags_of_one_item(self) -> None:
        found = found_in("import re\nfor p, f in (('a', re.I), ('b', re.M)):\n    re.compile(p, f)\n")
        self.assertEqual([(it.pattern, it.flags) for it in found], [("a", 2), ("b", 8)])

    def test_literal_with_each_flag(self) -> None:
        found = found_in("import re\nfor f in (re.I, re.M):\n    re.compile('a', f)\n")
        self.assertEqual([(it.pattern, it.flags, it.is_literal) for it in found], [("a", 2, True), ("a", 8, True)])

    def test_stand_in_in_a_loop_over_what_isnt_known(self) -> None:
        found = only("for w in x:\n    re.compile('^' + re.escape(w))")
        self.assertEqual((found.pattern, found.notes), ("^word", ("with 'word' for re.escape(w)",)))

    def test_other_places_are_as_without_the_loop(self) -> None:
        found = found_in("import re\nP = 'a'\nfor w in ('b', 'c'):\n    re.compile(P)\n    re.compile(P + w)\nre.compile(P)\n")
        self.assertEqual([it.pattern for it in found], ["a", "ab", "ac", "a"])

    def test_loops_inside_loops_are_limited(self) -> None:
        for depth, items in ((19, "'ab'"), (60, "'ab'"), (6, "('a',) * 60"), (30, "'a'")):
            with self.subTest(depth=depth, items=items):
                head = "".join("    " * it + f"for v{it} in {items}:\n" for it in range(depth))
                source = head + "    " * depth + "re.compile(" + " + ".join(f"v{it}" for it in range(depth)) + ")\n"
                why = {it.why for it in found_in("import re\n" + source)}
                self.assertLessEqual(why, {"loop over more than 64 values", "too deep", "too much work"})

    def test_empty_loops_inside_large_ones_are_limited(self) -> None:
        head = "".join("    " * it + f"for v{it} in range(60):\n" for it in range(6)) + "    " * 6 + "for w in ():\n"
        source = head + "    " * 7 + "re.compile(w + " + " + ".join(f"str(v{it})" for it in range(6)) + ")\n"
        found = only(source)
        self.assertIsNone(found.pattern)

    def test_a_huge_list(self) -> None:
        found = only("for w in [" + "'a', " * 20_000 + "]:\n    re.compile(w)")
        self.assertEqual((found.pattern, found.why), (None, "loop"))

    def test_many_places_in_one_loop(self) -> None:
        body = "".join(f"    re.compile(w + '{it}')\n" for it in range(300))
        found = found_in("import re\nfor w in ('a', 'b'):\n" + body)
        self.assertEqual(len(found), 600)

    def test_items_from_another_file(self) -> None:
        found = found_in("import re\nfrom .b import W\nfor w in W:\n    re.compile(w)\n", b="W = ('a', 'b')\n")
        self.assertEqual([it.pattern for it in found], ["a", "b"])

    def test_a_loop_of_another_file(self) -> None:
        self.assertEqual(only("from .b import w\nre.compile(w)", b="for w in ('a', 'b'):\n    pass\n").why, "loop")
        self.assertEqual(only("from .b import p\nre.compile(p)", b="for w in ('a', 'b'):\n    p = w\n").why, "loop")


class Imports(unittest.TestCase):
    """Names of other files of the run."""

    def test_from_a_file_beside(self) -> None:
        for source in ("from .consts import P\nre.compile(P)", "from pkg.consts import P as Q\nre.compile(Q)",
                       "from . import consts\nre.compile(consts.P)", "import pkg.consts as c\nre.compile(c.P)",
                       "import pkg.consts\nre.compile(pkg.consts.P)", "from .consts import *\nre.compile(P)"):
            with self.subTest(source=source):
                found = only(source, consts="P = 'a+'\n")
                self.assertEqual((found.pattern, found.holders[-1].path, found.holders[-1].line), ("a+", "pkg/consts.py", 1))

    def test_through_another_file(self) -> None:
        found = only("from .b import P\nre.compile(P)", b="from .c import P\n", c="P = 'a'\n")
        self.assertEqual(found.pattern, "a")

    def test_class_of_another_file(self) -> None:
        self.assertEqual(only("from .b import A\nre.compile(A.P)", b="class A:\n    P = 'a'\n").pattern, "a")

    def test_circle(self) -> None:
        found = only("from .b import P\nre.compile(P)", b="from .c import P\n", c="from .b import P\n")
        self.assertEqual(found.why, "recursion")

    def test_bound_twice_there(self) -> None:
        found = only("from .b import P\nre.compile(P)", b="P = 'a'\nP = 'b'\n")
        self.assertEqual(found.why, "bound more than once")

    def test_flags_of_another_file(self) -> None:
        found = only("from .b import P, F\nre.compile(P, F)", b="import re\nP = 'a'\nF = re.M\n")
        self.assertEqual((found.pattern, found.flags), ("a", 8))

    def test_re_of_another_file(self) -> None:
        self.assertEqual(len(found_in("from .b import re\nP = 'a'\nre.compile(P)", b="import re\n")), 1)

    def test_not_re(self) -> None:
        for source in ("import other as re\nP = 'a'\nre.compile(P)", "def f(re):\n    P = 'a'\n    re.compile(P)",
                       "P = 'a'\ncompile(P)", "class re:\n    pass\nP = 'a'\nre.compile(P)"):
            with self.subTest(source=source):
                self.assertEqual(found_in(source), [])


class Wrong(unittest.TestCase):
    """Patterns that other code changes: they aren't known."""

    A = "import re\nclass A:\n    Q = 'a'\n    def f(self):\n        return re.compile(self.Q)\n"
    P = "import re\nP = 'a'\ndef f():\n    return re.compile(P)\n"
    L = "import re\nP = ['a']\ndef f():\n    return re.compile('|'.join(P))\n"
    # The name of the first file, its source, and other files.
    CASES: Tuple[Tuple[str, str, Dict[str, str]], ...] = (
        ("pkg/sub/deep/m.py", P, {"x.py": "import pkg.sub.deep.m as m\nm.P = 'b'\n"}),
        ("pkg/sub/deep/m.py", P, {"x.py": "from pkg.sub.deep import m as n\nn.P, x = 'b', 1\n"}),
        ("pkg/m.py", P, {"x.py": "import pkg.m\nfor pkg.m.P in 'ab':\n    pass\n"}),
        ("pkg/m.py", P, {"x.py": "import pkg.m\ndel pkg.m.P\n"}),
        ("pkg/m.py", P, {"x.py": "from pkg import m\nsetattr(m, 'P', 'b')\n"}),
        ("pkg/m.py", P, {"x.py": "from pkg import m\ndef f(n):\n    setattr(m, n, 'b')\n"}),
        ("pkg/m.py", P.replace("P", "Ping"), {"x.py": "from pkg import m\nsetattr(m, 'Pi' 'ng', 'b')\n"}),
        ("pkg/m.py", P, {"x.py": "import pkg\nsetattr(pkg.m, chr(80), 'b')\n"}),
        ("pkg/m.py", P, {"x.py": "import pkg as q\nvars(q.m)[chr(80)] = 'b'\n"}),
        ("pkg/m.py", P, {"x.py": "import pkg as q\nq.m.__dict__[chr(80)] = 'b'\n"}),
        ("pkg/m.py", P, {"x.py": "import sys\nsetattr(sys.modules['pkg.m'], chr(80), 'b')\n"}),
        ("pkg/m.py", P, {"x.py": "import sys\nfrom pkg.m import f\nsetattr(sys.modules[f.__module__], chr(80), 'b')\n"}),
        ("pkg/m.py", P, {"x.py": "import inspect\nfrom pkg.m import f\nsetattr(inspect.getmodule(f), chr(80), 'b')\n"}),
        ("pkg/m.py", P, {"x.py": "from pkg import m\nvars(m)['P'] = 'b'\n"}),
        ("pkg/m.py", P, {"x.py": "from pkg import m\nm.__dict__['P'] = 'b'\n"}),
        ("pkg/m.py", P, {"x.py": "from pkg import m\nm.__dict__.update(P='b')\n"}),
        ("pkg/m.py", P, {"x.py": "from pkg import m\nexec('P = 1', m.__dict__)\n"}),
        ("pkg/m.py", P, {"x.py": "import sys, pkg.m\nsys.modules['pkg.m'].P = 'b'\n"}),
        ("m.py", "import sys\n" + P + "setattr(sys.modules[__name__], 'P', 'b')\n", {}),
        ("m.py", "import sys\n" + P + "sys.modules[__name__].P = 'b'\n", {}),
        ("m.py", "import sys\n" + P + "vars(sys.modules[__name__])['P'] = 'b'\n", {}),
        ("m.py", "import sys\n" + P + "sys.modules[__name__].__dict__['P'] = 'b'\n", {}),
        ("m.py", "import sys\n" + P + "def g(o, k):\n    setattr(o, k, 'b')\ng(sys.modules[__name__], 'P')\n", {}),
        ("m.py", P + "globals().update(P='b')\n", {}),
        ("p/m.py", A, {"x.py": "from p.m import A as Z\nclass B(Z):\n    Q = 'b'\n"}),
        ("p/m.py", A, {"x.py": "from p import m\nclass B(m.A):\n    def g(self):\n        self.Q = 'b'\n"}),
        ("p/m.py", A, {"x.py": "from p.m import A\na = A()\na.Q = 'b'\n"}),
        ("p/m.py", A, {"x.py": "from p.m import A\na = A()\nsetattr(a, 'Q', 'b')\n"}),
        ("p/m.py", A, {"x.py": "from p.m import A\na = A()\na.__dict__['Q'] = 'b'\n"}),
        ("p/m.py", A, {"x.py": "from p.m import A\nA.Q = 'b'\n"}),
        ("p/m.py", A, {"x.py": "from p.m import A\nB = type('B', (A,), {'Q': 'b'})\n"}),
        ("p/m.py", A, {"x.py": "from p.m import *\nclass B(A):\n    Q = 'b'\n"}),
        ("p/m.py", A, {"x.py": "from p.m import A\nclass B(A):\n    pass\n",
                       "y.py": "import x\nclass C(x.B):\n    Q = 'b'\n"}),
        ("p/m.py", A, {"x.py": "from p.m import A\ndef g():\n    return A\n",
                       "y.py": "import x\nclass C(x.g()):\n    Q = 'b'\n"}),
        ("m.py", A + "Z = A\nclass B(Z):\n    Q = 'b'\n", {}),
        ("m.py", A + "class C:\n    Q = 'b'\nclass B(C, A):\n    pass\n", {}),
        ("m.py", A + "def g(a):\n    a.Q = 'b'\n", {}),
        ("m.py", A + "    def g(self, k):\n        setattr(self, k, 'b')\n", {}),
        ("m.py", A + "    def g(self, k):\n        self.__dict__.update(k)\n", {}),
        ("m.py", A + "    def g(self, k):\n        vars(self).update(k)\n", {}),
        ("m.py", A.replace("class A:", "class A(Base):"), {}),
        ("m.py", A.replace("class A:", "from b import Base\nclass A(Base):"),
         {"b.py": "class Base:\n    def __init__(self, **k):\n        for it in k: setattr(self, it, k[it])\n"}),
        ("p/m.py", A.replace("class A:", "class D: pass\nclass A(D):"),
         {"x.py": "from p.m import A\nclass B(A):\n    def g(self, k):\n        self.__dict__.update(k)\n"}),
        ("p/m.py", A, {"x.py": "from p.m import A\ndef g(k):\n    return type('B', (A,), dict(Q='b'))\n"}),
        ("p/m.py", A, {"x.py": "from p.m import A\ndef g(k):\n    return type('B', (A,), k)\n"}),
        ("p/m.py", A.replace("Q", "__Q"), {"x.py": "from p.m import A\na = A()\na._A__Q = 'b'\n"}),
        ("p/m.py", A.replace("Q", "__Q") + "def g(a):\n    a._A__Q = 'b'\n", {}),
        ("m.py", A.replace("class A:", "@made\nclass A:"), {}),
        ("m.py", A.replace("class A:", "class A(metaclass=M):"), {}),
        ("m.py", L + "def register(w, m):\n    w.append(m)\nregister(P, 'b')\n", {}),
        ("m.py", L + "g = P.append\ng('b')\n", {}),
        ("m.py", L + "import heapq\nheapq.heappush(P, 'b')\n", {}),
        ("m.py", L + "T = [P]\nT[0].append('b')\n", {}),
        ("m.py", L + "def g(x=P):\n    x.append('b')\n", {}),
        ("m.py", L + "R = P\nR.append('b')\n", {}),
        ("m.py", L + "R = P or 1\nR.append('b')\n", {}),
        ("m.py", L + "R = P if f else P\nR.append('b')\n", {}),
        ("m.py", L + "def g():\n    return P\ng().append('b')\n", {}),
        ("m.py", L + "list.append(P, 'b')\n", {}),
        ("m.py", L + "P[0] = 'b'\n", {}),
        ("m.py", L + "del P[0]\n", {}),
        ("m.py", L.replace("P = ['a']", "P = R = ['a']") + "R.append('b')\n", {}),
        ("m.py", "import re\nP = (['a'], 1)\nP[0].append('b')\nre.compile(P[0][0])\n", {}),
        ("p/m.py", L, {"x.py": "from p.m import *\nP.append('b')\n"}),
        ("p/m.py", L, {"x.py": "from p.m import P\nP.append('b')\n"}),
        ("p/m.py", L, {"x.py": "from p.m import P as R\nR.append('b')\n"}),
        ("p/m.py", L, {"x.py": "from p import m\nr = m.P\nr += ['b']\n"}),
        ("p/m.py", L, {"x.py": "from p import m\nm.P += ['b']\n"}),
        ("p/m.py", L, {"x.py": "from p.m import P\nP += ['b']\n"}),
        ("p/m.py", L, {"x.py": "from p import m\ndef g(x=m.P):\n    x.append('b')\n"}),
        ("m.py", "import re\ndef f(x):\n    return re.compile(r'^([%s]\\s?|[.,]\\s?)+$' % re.escape(x))\n", {}),
        ("m.py", "import re\ndef f(x):\n    return re.compile('[' + re.escape(x) + ']+')\n", {}),
        ("m.py", "import re\ndef f(x):\n    return re.compile('[^]' + re.escape(x) + ']+')\n", {}),
        ("m.py", "import re\ndef f(x):\n    return re.compile('(?P<' + re.escape(x) + '>a)')\n", {}),
        ("m.py", "import re\ndef f(x):\n    return re.compile('\\\\' + re.escape(x))\n", {}),
        ("m.py", "import re\ndef f(x):\n    return re.compile('a{' + re.escape(x) + '}')\n", {}),
        ("m.py", "import re\ndef f(x):\n    return re.compile((re.escape(x) + 'b').upper())\n", {}),
        ("x.py", "import re\nfrom m import P as R\nre.compile(R)\n", {"m.py": "P = 'a'\n", "y.py": "import x\nx.R = 'b'\n"}),
        ("x.py", "import re\nfrom m import *\nre.compile(P)\n", {"m.py": "P = 'a'\n", "y.py": "import x\nx.P = 'b'\n"}),
        ("x.py", "import re\nfrom m import P\nP.append('b')\nre.compile(''.join(P))\n", {"m.py": "P = ['a']\n"}),
        ("a/b/x.py", "import re\nfrom config import P\nre.compile(P)\n", {"a/c/config.py": "P = 'a'\n"}),
        ("a/b/x.py", "import re\nfrom config import P\nre.compile(P)\n",
         {"a/config.py": "P = 'a'\n", "config.py": "P = 'b'\n"}),
        ("a/x.py", "import re\nfrom types import P\nre.compile(P)\n", {"a/types.py": "P = 'a'\n"}),
        ("a/x.py", "import re\nfrom m import P\nre.compile(P)\n",
         {"a/__init__.py": "", "a/m.py": "P = 'a'\n"}),
    )
    # What other files do that changes nothing.
    KEPT: Tuple[Tuple[str, str, Dict[str, str]], ...] = (
        ("pkg/sub/deep/m.py", P, {"x.py": "import pkg.sub.deep.m as m\nprint(m.P)\nif m.P == 'b':\n    P = 'b'\n"}),
        ("p/m.py", P, {"x.py": "class C:\n    def f(self):\n        self.P = 'b'\n"}),
        ("p/m.py", P, {"x.py": "P = 'b'\ndef f(P):\n    P = 'c'\n"}),
        ("p/m.py", P, {"x.py": "from q import r\ndef f(o, k):\n    setattr(o, k, 'b')\n"}),
        ("p/m.py", A, {"x.py": "class C:\n    Q = 'b'\n", "y.py": "from p.m import A\na = A()\na.R = 'b'\nprint(A.Q)\n"}),
        ("m.py", A + "class C:\n    Q = 'b'\n    def g(self):\n        self.Q = 'c'\n", {}),
        ("m.py", A.replace("class A:", "class A(object):"), {}),
        ("m.py", A.replace("Q", "__Q"), {"x.py": "class B:\n    __Q = 'b'\n"}),
        ("m.py", A.replace("class A:", "from b import Base\nclass A(Base):"), {"b.py": "class Base:\n    pass\n"}),
        ("p/m.py", L, {"x.py": "from p.m import P\nfor it in P:\n    print(it, len(P), P[0], 'b' in P)\n"}),
        ("p/m.py", L, {"x.py": "P = []\nP.append('b')\n"}),
    )

    def test_not_known(self) -> None:
        for path, source, others in self.CASES:
            with self.subTest(source=source, others=others):
                self.assertEqual(Files({path: source, **others}).patterns(path), [])

    def test_known(self) -> None:
        for path, source, others in self.KEPT:
            with self.subTest(source=source, others=others):
                self.assertEqual(Files({path: source, **others}).patterns(path), ["a"])

    def test_a_module_without_init_is_found(self) -> None:
        source = "import re\nfrom pkg.sub.deep.m import P\nre.compile(P)\n"
        for path in ("pkg/sub/deep/x.py", "pkg/x.py", "x.py", "tests/x.py"):
            with self.subTest(path=path):
                self.assertEqual(Files({path: source, "pkg/sub/deep/m.py": "P = 'a'\n"}).patterns(path), ["a"])


if __name__ == "__main__":
    unittest.main()
