"""What takes a pattern: the rows of the table, notebooks, and whole runs over folders."""
from __future__ import annotations

import contextlib
import html
import io
import json
import os
import unittest
from typing import Dict, List, Mapping, Optional, Tuple

from engine_support import folder, missing
from relint.base.model import ELSEWHERE, Finding, Summary
from relint.cli import main
from relint.code.fold import Folder, Sources
from relint.code.places import (
    Found, NotebookError, Takers, TakersError, notebook, own_rows, places_in, rows_in, taker_of, takers_of,
)
from relint.code.source import SourceError, Unit
from relint.options import FORMATS, read_options
from relint.stages.pipeline import run

BAD = r"^(\w+\s?)*$"
TABLE = Takers(takers_of(own_rows()), True)
# For each row of the table, by the row's first name: a source that gives the pattern to it.
TAKEN: Dict[str, str] = {
    "django.urls.re_path": "from django.urls import re_path\nre_path({0}, view)",
    "django.core.validators.RegexValidator": "from django.core.validators import RegexValidator\nRegexValidator(regex={0})",
    "django.forms.RegexField": "from django import forms\nforms.RegexField({0})",
    "pydantic.Field": "from pydantic import Field\nx: str = Field(pattern={0})",
    "wtforms.validators.Regexp": "from wtforms.validators import Regexp\nRegexp({0}, flags=0)",
    "pyparsing.Regex": "import pyparsing as pp\npp.Regex({0})",
    "attr.validators.matches_re": "import attr\nattr.validators.matches_re({0})",
    "voluptuous.Match": "from voluptuous import Match\nMatch({0})",
    "nltk.tokenize.RegexpTokenizer": "from nltk.tokenize import RegexpTokenizer\nRegexpTokenizer({0})",
    "str.contains": "import pandas\nframe['a'].str.contains({0})",
    "str.extract": "import pandas as pd\nframe.a.str.extract({0})",
    "str.extractall": "import pandas\nframe.a.str.extractall({0})",
    "str.match": "import pandas\nframe.a.str.match({0})",
    "str.fullmatch": "import pandas\nframe.a.str.fullmatch({0})",
    "str.replace": "import pandas\nframe.a.str.replace({0}, '', regex=True)",
    "str.split": "import pandas\nframe.a.str.split({0})",
    "str.findall": "import pandas\nframe.a.str.findall({0})",
    "str.count": "import pandas\nframe.a.str.count({0})",
    "scrapy.linkextractors.LinkExtractor": "from scrapy.linkextractors import LinkExtractor\nRule(LinkExtractor(allow=[{0}]))",
    "re": "import scrapy\nresponse.css('a').re({0})",
    "re_first": "import scrapy\nresponse.css('a').re_first({0})",
    "tokens": "from pygments.lexer import RegexLexer\nclass L(RegexLexer):\n    tokens = {{'root': [({0}, Text)]}}",
    "t_*": "import ply.lex\nt_WORD = {0}",
    "regex": "from werkzeug.routing import BaseConverter\nclass C(BaseConverter):\n    regex = {0}",
    "regex.compile": "import regex\nregex.compile({0})",
    "regex.search": "import regex\nregex.search({0}, 'x')",
    "regex.match": "import regex\nregex.match({0}, 'x')",
    "regex.fullmatch": "import regex\nregex.fullmatch({0}, 'x')",
    "regex.split": "import regex\nregex.split({0}, 'x')",
    "regex.sub": "import regex\nregex.sub({0}, '', 'x')",
    "django.utils.regex_helper._lazy_re_compile":
        "from django.utils.regex_helper import _lazy_re_compile\nx = _lazy_re_compile({0})",
    "lookup_value_regex": "from rest_framework import viewsets\nclass V(viewsets.ModelViewSet):\n    lookup_value_regex = {0}",
    "rest_framework.decorators.action":
        "from rest_framework.decorators import action\nclass V:\n    @action(detail=True, url_path={0})\n    def f(s): 1",
    "pydantic.v1.Field": "from pydantic.v1 import BaseModel, Field\nclass M(BaseModel):\n    x: str = Field(..., regex={0})",
    "starlette.middleware.cors.CORSMiddleware": "from starlette.middleware import Middleware\n"
        "from starlette.middleware.cors import CORSMiddleware\napp = CORSMiddleware(app, allow_origin_regex={0})",
    "add_middleware": "import fastapi\napp.add_middleware(CORSMiddleware, allow_origin_regex={0})",
    "replace": "import pandas as pd\ndf.replace(regex={0}, value='new')",
    "filter": "import pandas as pd\ndf.filter(regex={0}, axis=1)",
    "pandas.read_csv": "import pandas as pd\npd.read_csv('data.csv', sep={0}, engine='python')",
    "sitemap_rules": "from scrapy.spiders import SitemapSpider\n"
        "class S(SitemapSpider):\n    sitemap_rules = [({0}, 'parse_product')]",
    "sitemap_follow": "from scrapy.spiders import SitemapSpider\nclass S(SitemapSpider):\n    sitemap_follow = [{0}]",
    "nltk.tokenize.regexp_tokenize": "from nltk.tokenize import regexp_tokenize\nregexp_tokenize(s, pattern={0})",
    "nltk.stem.RegexpStemmer": "from nltk.stem import RegexpStemmer\nst = RegexpStemmer({0}, min=4)",
    "nltk.RegexpTagger": "import nltk\nnltk.RegexpTagger([({0}, 'CD')])",
    "tornado.web.Application": "import tornado.web\ntornado.web.Application([({0}, MainHandler)])",
    "tornado.web.url": "from tornado.web import url\nurl({0}, MainHandler)",
    "assertRegex": "import unittest\nself.assertRegex('some text', {0})",
    "assertNotRegex": "import unittest\nself.assertNotRegex('some text', {0})",
    "assertRaisesRegex": "import unittest\nwith self.assertRaisesRegex(ValueError, {0}):\n    int('XYZ')",
    "assertWarnsRegex": "import unittest\nself.assertWarnsRegex(DeprecationWarning, {0}, legacy_function, 'XYZ')",
    "pytest.raises": "import pytest\nwith pytest.raises(ValueError, match={0}):\n    f()",
    "warnings.filterwarnings": "import warnings\nwarnings.filterwarnings('ignore', message={0})",
    "re.Scanner": "import re\nre.Scanner([({0}, lambda scanner, token: token)])",
    "sklearn.feature_extraction.text.CountVectorizer":
        "from sklearn.feature_extraction.text import CountVectorizer\nCountVectorizer(token_pattern={0})",
    "oslo_config.cfg.StrOpt": "from oslo_config import cfg\ncfg.StrOpt('name', regex={0})",
    "expect": "import pexpect\nchild = pexpect.spawn('ftp')\nchild.expect([{0}])",
    "markdown.inlinepatterns.InlineProcessor":
        "from markdown.inlinepatterns import InlineProcessor\nmd.inlinePatterns.register(InlineProcessor({0}, md), 'del', 9)",
    "schema.Regex": "from schema import Regex\nRegex({0})",
    "formencode.validators.Regex": "from formencode import validators\nvalidators.Regex(regex={0})",
    "trafaret.Regexp": "import trafaret as t\nt.Regexp({0})",
    "*__regex": "Entry.objects.get(title__regex={0})",
    "*__iregex": "from django.db.models import Q\nq = Q(title__iregex={0})",
    "django.db.models.FilePathField": "from django.db import models\nmodels.FilePathField(path='/img', match={0})",
    "SECURE_REDIRECT_EXEMPT": "SECURE_REDIRECT_EXEMPT = [{0}]",
    "CORS_ALLOWED_ORIGIN_REGEXES": "CORS_ALLOWED_ORIGIN_REGEXES = [{0}]",
    "CORS_URLS_REGEX": "CORS_URLS_REGEX = {0}",
    "starlette.middleware.Middleware": "from starlette.middleware import Middleware\n"
        "from starlette.middleware.cors import CORSMiddleware\nm = [Middleware(CORSMiddleware, allow_origin_regex={0})]",
    "pandas.read_html": "import pandas as pd\npd.read_html(url, match={0})",
    "add_css": "from scrapy.loader import ItemLoader\nl.add_css('price', 'p#price', re={0})",
    "add_xpath": "import scrapy\nl.add_xpath('price', '//p', re={0})",
    "add_value": "import scrapy\nl.add_value('name', 'name: foo', str.upper, re={0})",
    "get_css": "import scrapy\nl.get_css('p', re={0})",
    "get_xpath": "import scrapy\nl.get_xpath('//p', re={0})",
    "get_value": "import scrapy\nl.get_value('name: foo', re={0})",
    "replace_css": "import scrapy\nl.replace_css('price', 'p#price', re={0})",
    "replace_xpath": "import scrapy\nl.replace_xpath('price', '//p', re={0})",
    "replace_value": "import scrapy\nl.replace_value('name', 'x', re={0})",
    "nltk.corpus.reader.PlaintextCorpusReader":
        "from nltk.corpus.reader import PlaintextCorpusReader\nPlaintextCorpusReader(root, {0})",
    "nltk.chat.util.Chat": "from nltk.chat.util import Chat\npairs = (({0}, ('Why?',)),)\nChat(pairs, reflections)",
    "flask_restful.inputs.regex": "from flask_restful import inputs\nparser.add_argument('key', type=inputs.regex({0}))",
    "tornado.routing.HostMatches": "from tornado.routing import HostMatches\nHostMatches({0})",
    "add_handlers": "import tornado.web\napplication.add_handlers({0}, handlers)",
    "read_until_regex": "from tornado.iostream import IOStream\nstream.read_until_regex({0})",
    "jsonschema.validate": "import jsonschema\njsonschema.validate('x', {{'type': 'string', 'pattern': {0}}})",
    "jsonschema.Draft3Validator":
        "import jsonschema\nS = {{'properties': {{'a': {{'pattern': {0}}}}}}}\njsonschema.Draft3Validator(S)",
    "assertRegexpMatches": "import unittest\nself.assertRegexpMatches('text', {0})",
    "assertNotRegexpMatches": "import unittest\nself.assertNotRegexpMatches('text', {0})",
    "assertRaisesRegexp": "import unittest\nself.assertRaisesRegexp(ValueError, {0}, int, 'x')",
    "re_match_lines": "import pytest\nresult.stdout.re_match_lines([{0}])",
    "sklearn.compose.make_column_selector":
        "from sklearn.compose import make_column_selector\nmake_column_selector(pattern={0})",
    "oslo_config.types.String": "from oslo_config import types\ntypes.String(regex={0})",
    "pexpect.run": "import pexpect\npexpect.run('scp a b:', events={{{0}: 'secret'}})",
    "compile_pattern_list": "import pexpect\nchild.compile_pattern_list([{0}])",
    "add_argument": "import argparse, re\nparser.add_argument('--match', type=re.compile, default={0})",
    "voluptuous.Replace": "from voluptuous import Replace\nReplace({0}, '')",
    "mongoengine.StringField": "from mongoengine import StringField\nStringField(regex={0})",
    "linkcheck_ignore": "linkcheck_ignore = [{0}]",
    "hypothesis.strategies.from_regex": "from hypothesis import strategies as st\nst.from_regex({0})",
}
# Rows whose taker makes a pattern of what it gets: a source, and the pattern.
MADE: Dict[str, Tuple[str, str]] = {
    "markdown.inlinepatterns.Pattern": ("import markdown.inlinepatterns as m\nm.Pattern('a+')", "^(.*?)a+(.*)$"),
    "aiohttp.web.get": ("from aiohttp import web\nweb.get(r'/a/{x:\\d{2}}/{y}', f)", r"/a/(?P<x>\d{2})/(?P<y>[^{}/]+)"),
    "aiohttp.web.route": ("from aiohttp import web\nweb.route('*', '/{x:a+}', f)", "/(?P<x>a+)"),
    **{name: (f"import aiohttp\nroutes.{name}('/{{x:a+}}')", "/(?P<x>a+)") for name in (
        "get", "post", "put", "patch", "delete", "head", "options", "view", "add_get", "add_post", "add_put", "add_patch",
        "add_delete", "add_head", "add_options", "add_view", "add_resource")},
    "route": ("import aiohttp\nroutes.route('GET', '/{x:a+}')", "/(?P<x>a+)"),
    "add_route": ("import pyramid\nconfig.add_route('x', '/{y}/{x:a+}')", "/(?P<y>[^/]+)/(?P<x>a+)$"),
    "bottle.route": ("from bottle import route\nroute(r'/<x:re:\\d+>/<y:int>', 'GET')", r"^(/(?P<x>\d+)/(?P<y>-?\d+))$"),
}
# More uses of rows whose name another row has too.
MORE = (
    "from django.core.validators import RegexValidator\nclass V(RegexValidator):\n    regex = {0}",
    "from django.urls.converters import StringConverter\nclass C(StringConverter):\n    regex = {0}",
    "from parsel import Selector\nselector.xpath('//a').re({0})",
    "from parsel import Selector\nselector.css('a').re_first({0})",
    "import warnings\nwarnings.filterwarnings('ignore', module={0})",
    "from werkzeug.routing import BaseConverter\nclass C(BaseConverter):\n    def __init__(self):\n        self.regex = {0}",
    "class C:\n    regex = {0}\n    def to_python(self, v): 1\n    def to_url(self, v): 1",
    "Entry.objects.filter(a=1, **{{'b__c__regex': {0}}})",
    "from starlette.convertors import Convertor\nclass C(Convertor):\n    regex = {0}",
    "from pydantic import ConstrainedStr\nclass C(ConstrainedStr):\n    regex = {0}",
    "import pandas as pd\ndf.replace({0}, 'x', regex=True)", "import pandas as pd\ndf.replace([{0}], 'x', regex=True)",
    "from scrapy.linkextractors import LinkExtractor\nLinkExtractor(restrict_text={0})",
    "import tornado.web\na.add_handlers(host, [({0}, Handler)])", "import re\nlist(map(re.compile, [{0}]))",
    "from formencode import validators\nclass C(validators.Regex):\n    regex = {0}",
    "from pygments.lexers.c_cpp import CppLexer\nclass C(CppLexer):\n    tokens = {{'root': [({0}, Text)]}}",
    "from pygments.lexer import RegexLexer\nclass B(RegexLexer):\n    a = 1\nclass C(B):\n    tokens = {{'r': [({0}, T)]}}",
    "from markdown.inlinepatterns import InlineProcessor as I\nclass P(I):\n    a = 1\nclass Q(P):\n    b = 1\nQ({0}, md)",
    "import tornado.web as w\nclass A(w.Application):\n    def __init__(s):\n        its = [({0}, H)]\n"
    "        super().__init__(its)",
    "from nltk import RegexpTokenizer as R\nclass A(R):\n    def __init__(self):\n        R.__init__(self, {0})",
    "import jsonschema\nA = {{'pattern': {0}}}\nB = {{'items': [A]}}\njsonschema.validate(1, B)\njsonschema.validate(2, B)",
    "from jsonschema import validate\nvalidate(1, {{'patternProperties': {{{0}: {{'default': {{'pattern': 'x'}}}}}}}})",
)
# Uses by which nothing is known for sure.
NOT_SURE = (
    "import jsonschema\nA = {{'pattern': {0}}}\nA['pattern'] = x\njsonschema.validate(1, A)",
    "import jsonschema\nA = {{'pattern': {0}}}\nf(A)\njsonschema.validate(1, A)",
    "import jsonschema\nA = {{'pattern': {0}}}\nB = {{'items': A}}\nB['items'].clear()\njsonschema.validate(1, B)",
    "import jsonschema\nA = B = {{'pattern': {0}}}\nB.clear()\njsonschema.validate(1, A)",
    "import jsonschema\nif x:\n    A = {{'pattern': {0}}}\nelse:\n    A = y\njsonschema.validate(1, A)",
    "import jsonschema\njsonschema.validate(1, {{'properties': {{'pattern': {{'enum': [{0}]}}}}}})",
    "import jsonschema\njsonschema.validate(1, {{'pattern': {{'pattern': 1}}, 'enum': [{{'pattern': {0}}}]}})",
    "import nltk\nA = [({0}, 'X')]\nA.append(('b', 'Y'))\nnltk.RegexpTagger(A)",
    "from markdown.inlinepatterns import InlineProcessor as I\nclass P(I):\n    def __init__(self, *its): 1\nP({0}, md)",
    "from markdown.inlinepatterns import InlineProcessor as I\nclass P(I, Other):\n    a = 1\nP({0}, md)",
    "from markdown.inlinepatterns import InlineProcessor as I\n@dataclass\nclass P(I):\n    a: str\nP({0}, md)",
    "import jsonschema\njsonschema.validate(1, {{'pattern': {0}, **x}})",
    "import nltk\nnltk.RegexpTagger(**{{'regexps': [({0}, 1)], **x}})",
    "import nltk\nfor x in ({0}, 'b'):\n    A = [(x, 'X')]\nnltk.RegexpTagger(A)",
    "class C:\n    regex = {0}\n    def to_python(self, v): 1", "import pandas\ndf.replace({{'A': {0}}}, 'x', regex=True)",
    "import aiohttp\nsession.get('http://h/{{x:' + {0} + '}}')", "import bottle\nbottle.get('/<x:list:' + {0} + '>')",
    "import argparse\nparser.add_argument('--match', type=str, default={0})",
)
NOT_TAKEN = (
    "import pandas\nframe.a.str.contains({0}, regex=False)",
    "import pandas\nframe.a.str.replace({0}, '')",
    "import pandas\n'a'.replace({0}, '')",
    "frame.a.str.contains({0})",
    "from django.urls import path\npath({0}, view)",
    "import ply.lex\nt_ignore = {0}",
    "from other import Field\nField(pattern={0})",
    "import re\nP = re.compile({0})\nre.search(P, 'x')", "import re, pytest\npytest.raises(E, match=re.compile({0}))",
    "import re\nclass A:\n    P = re.compile({0})\n    def f(self):\n        re.search(self.P, 'x')",
    "import pandas as pd\npd.read_csv('data.csv', sep=',')",
)
# Plain Python, with the patterns that are found beside literals.
PLAIN: Tuple[Tuple[str, Tuple[Optional[str], ...]], ...] = (
    ("P = re.compile('x')\nre.search(P, s)", ()),
    ("list(map(re.compile, ['a', 'b' + 'c']))", ("a", "bc")),
    ("W = ('a', 'b')\nmap(re.compile, W)", ("a", "b")),
    ("import functools\nfunctools.partial(re.search, 'a' + 'b')", ("ab",)),
    ("re.compile('a' + 'b', re.I + re.U)", ("ab",)),
    ("def c(p, f=re.I):\n    return re.compile('^' + p, f)\nX = c('a')\nY = c(p='b', f=0)\nc(z)\nmap(c, q)",
     ("^a", "^b", None)),
    ("c = lambda p: re.compile(p)\nX = c('a')", ("a",)), ("c = re.compile\nc('a')", ("a",)),
    ("import functools\n@functools.lru_cache(maxsize=9)\ndef c(p):\n    return re.compile(p)\nc('a')", ("a",)),
    ("from functools import partial\nc = partial(re.compile, flags=re.I)\nc('a')\nc('b', flags=0)", ("a", "b")),
    ("class A:\n    def c(self, p):\n        return re.compile(p)\n    def f(self):\n        self.c('a')", ("a",)),
    ("class A:\n    Q = 'q'\n    def c(self, p):\n        return re.compile(self.Q + p)\n    def f(self):\n"
     "        self.c('a')\n        self.c(x)", ("qa", None)),
    ("class A:\n    def c(self):\n        return re.compile(self)\n    def f(self):\n        self.c()", (None,)),
    ("class A(B):\n    def c(self, p):\n        return re.compile(p)\n    def f(self):\n        self.c('a')", (None,)),
    ("class A:\n    def c(self, p):\n        return re.compile(p)\n    def f(self):\n        self.c('a')\nA.c = x", (None,)),
    ("def c(p):\n    return re.compile(p)\nc('a')\nimport sys\nsys.modules[__name__].c = x", (None,)),
    ("re.compile(**{'pattern': 'a'})\nre.compile(flags=re.I, pattern='b')", ("a", "b")),
    ("def f(s, p='a+'):\n    return re.search(p, s)", ("a+",)),
    ("class A:\n    def f(self, s, p='a+'):\n        q = p + '$'\n        return re.search(q, s)", ("a+$",)),
    ("def f(p):\n    p = p + 'a'\n    return re.compile(p)\nf('b')", (None,)),
    ("def f(p):\n    return re.compile(p)", (None,)),
    ("@d\ndef f(p):\n    return re.compile(p)\nf('a')", (None,)),
)


def found_in(source: str, takers: Takers = TABLE) -> List[Found]:
    """What is found in a source without other files."""
    def none(path: str) -> Unit:
        """There is no other file."""
        raise SourceError("it isn't there")

    return places_in(Unit("a.py", source.encode()), takers, Folder(Sources(none)))


def patterns(source: str) -> List[object]:
    """The patterns that are known in a source."""
    return [it.site.pattern for it in found_in(source) if it.site is not None]


class Table(unittest.TestCase):
    """The rows of the table."""

    def test_each_row_has_a_source(self) -> None:
        self.assertEqual({*TAKEN, *MADE}, {it.name for it in takers_of(own_rows())})

    def test_patterns_that_takers_make(self) -> None:
        for name, (source, pattern) in MADE.items():
            with self.subTest(taker=name):
                self.assertEqual([(it.site.pattern, it.site.taker) for it in found_in(source) if it.site], [(pattern, name)])

    def test_what_is_not_sure(self) -> None:
        for source in NOT_SURE:
            with self.subTest(source=source):
                self.assertEqual(patterns(source.format(repr(BAD))), [])

    def test_each_row(self) -> None:
        for name, source in TAKEN.items():
            with self.subTest(taker=name):
                text = source.format(repr(BAD))
                found, = found_in(text)
                assert found.site is not None
                self.assertEqual((found.site.pattern, found.site.taker), (BAD, name))
                self.assertTrue(TABLE.may_take(text.encode()))

    def test_more_uses(self) -> None:
        for source in MORE:
            with self.subTest(source=source):
                self.assertEqual(patterns(source.format(repr(BAD))), [BAD])

    def test_what_takes_none(self) -> None:
        for source in NOT_TAKEN:
            with self.subTest(source=source):
                self.assertEqual([it for it in found_in(source.format(repr(BAD))) if not it.is_literal], [])

    def test_hostile_displays_end(self) -> None:
        names = [f"T{at} = {{'a': T{at + 1}, 'b': [T{at + 1}] * 1, 'c': {{'d': T{at + 1}}}}}" for at in range(40)]
        source = "\n".join(["import jsonschema", *names, "A = {'x': A, 'y': A}", "jsonschema.validate(1, T0)",
                            "jsonschema.validate(1, A)", f"jsonschema.validate(1, {'[' * 90}{{'pattern': 'x'}}{']' * 90})"])
        self.assertEqual(patterns(source), ["x"])

    def test_flags_of_takers(self) -> None:
        source = "from wtforms.validators import Regexp\nimport re, ply.lex\nRegexp('a', re.I)\nt_A = 'a'\n"
        self.assertEqual([it.site.flags for it in found_in(source) if it.site], [2, 64])

    def test_lexers_only_with_wide(self) -> None:
        source = TAKEN["tokens"].format(repr(BAD))
        narrow = Takers(takers_of(own_rows()), False)
        self.assertEqual((found_in(source, narrow), narrow.may_take(source.encode())), ([], False))

    def test_plain_python(self) -> None:
        for source, its in PLAIN:
            with self.subTest(source=source):
                found = found_in("import re\n" + source)
                its_sites = [it.site for it in found if not it.is_literal or len(its) > 1]
                self.assertEqual(tuple(it and it.pattern for it in its_sites), its)

    def test_wrong_rows(self) -> None:
        for row, words in (
            ({"call": ["a"], "mode": "search"}, "which argument"), ({"mode": "search"}, "names no call"), (3, "no table"),
            ({"call": "a", "mode": "match"}, "call has to be a list of texts"), ({"colour": 1}, "isn't known: colour"),
            ({"call": ["a"], "pattern": True, "mode": "match"}, "pattern has to be a number"),
            ({"call": ["a"], "pattern": 0, "mode": "match", "always": ["Q"]}, "Q is no flag"),
            ({"attribute": "a", "mode": "match", "shape": "round"}, "shape has to be"),
            ({"attribute": "a", "mode": "find"}, "mode has to be"),
        ):
            with self.subTest(row=row), self.assertRaisesRegex(TakersError, words):
                taker_of(row, "row 1")

    def test_files_of_rows(self) -> None:
        self.assertEqual(rows_in("[[taker]]\nmode = 'match'\n", "f"), [{"mode": "match"}])
        self.assertEqual(rows_in("[[tool.relint.wide.taker]]\nmode = 'match'\n", "f"), [{"mode": "match"}])
        for text in ("[", "tool = 3"):
            with self.subTest(text=text), self.assertRaises(TakersError):
                rows_in(text, "f")


class Bytes(unittest.TestCase):
    """Which files are looked at at all."""

    def test_what_is_looked_at(self) -> None:
        for source, looks in (
            ("import re\nre.compile('a')\nre.search(r'a', x)\nre.sub(\n    # x\n    'a', '', x)", False),
            ("import re\nre.compile(P)", True), ("import re\nre . compile (P)", True), ("import re\nre.compile(f'a')", True),
            ("import re\nc = re.compile", True), ("from re import compile", True), ("import re as r", True),
            ("import regex", True), ("import pandas", False), ("x.str.match('a')", False), ("", False),
        ):
            with self.subTest(source=source):
                self.assertEqual(TABLE.may_take(source.encode()), looks)


class Notebooks(unittest.TestCase):
    """Notebooks as sources."""

    def test_what_is_none(self) -> None:
        for data in (b"{", b"[]", b"{}", b'{"cells": 3}', b"\xff", b"[" * 100_000, b'{"worksheets": [3]}'):
            with self.subTest(data=data[:20]), self.assertRaises(NotebookError):
                notebook(data)

    def test_old_form(self) -> None:
        data = {"worksheets": [{"cells": [{"cell_type": "code", "input": ["a = 1\n", "b = 2"]}]}]}
        self.assertEqual(notebook(json.dumps(data).encode()).text, "a = 1\nb = 2\n")

    def test_a_cell_of_another_language_is_blank(self) -> None:
        data = {"cells": [{"cell_type": "code", "source": "%%bash\nls"}, {"cell_type": "code", "source": "a = 1"}]}
        found = notebook(json.dumps(data).encode())
        self.assertEqual((found.text, found.left_out, found.origin(3)), ("\n\na = 1\n", (), (2, 1)))

    def test_no_command_hides_python(self) -> None:
        for text, wanted, left in (
                ("%%time\na = 1", "pass\na = 1\n", ()), ("%%capture out\na = 1", "pass\na = 1\n", ()),
                ("!ls\na = 1  # why?", "pass\na = 1  # why?\n", ()), ("%ls\na?\na.b??", "pass\npass\npass\n", ()),
                ("!ls\n%timeit f(1)", "pass\npass;   f(1)\n", ()), ("if a:\n  %time f(1)", "if a:\n  pass; f(1)\n", ()),
                ("a = (5\n  % 3)", "a = (5\n  % 3)\n", ()), ("a = \"\"\"\n!b\n\"\"\"", "a = \"\"\"\n!b\n\"\"\"\n", ()),
                ("%%cython\ncdef int a", "\n\n", (1,)), ("%%writefile a.py\na = 1", "pass\na = 1\n", ()),
                (" %%HTML\na = 1", "\n\n", ()), ("%timeit -n 9 f(1)\nb c", "\n\n", (1,))):
            found = notebook(json.dumps({"cells": [{"cell_type": "code", "source": text}]}).encode())
            self.assertEqual((found.text, found.left_out), (wanted, left), text)


def ran(files: Mapping[str, object], *words: str) -> Tuple[List[Finding], Summary]:
    """What `rlt check` finds in files beside what the program reads itself."""
    with folder({".git/HEAD": "", **files}):
        findings, summary = run(read_options(["check", *words], os.getcwd()))
    return [it for it in findings if it.known == ELSEWHERE], summary


def told(findings: List[Finding]) -> List[Tuple[str, int, object, str]]:
    """The path, line and pattern of each finding, and its kind."""
    return [(it.entry.path, it.place.line, it.site.pattern if it.site else None, it.entry.kind) for it in findings]


@unittest.skipIf(missing("relint", "relint-ask"), missing("relint", "relint-ask"))
class Runs(unittest.TestCase):
    """Whole runs."""

    def test_by_default(self) -> None:
        source = (f"import re\nP = {BAD!r}\nre.compile(P)\nre.compile({BAD!r})\nre.compile('a+' + 'b')\n"
                  f"re.compile('(a+)+$', re.I + re.U)\n")
        findings, _ = ran({"a.py": source, "b.py": "import re\nfrom a import P as Q\nre.search('x' + Q, 's')\n"})
        self.assertEqual(told(findings), [
            ("a.py", 3, BAD, "exponential"), ("a.py", 5, "a+b", "degree"), ("a.py", 6, "(a+)+$", "exponential"),
            ("b.py", 3, "x" + BAD, "degree")])

    def test_bound_by_another_file(self) -> None:
        first = f"import re\nP = {BAD!r}\nre.compile(P)\n"
        self.assertEqual(told(ran({"p/a.py": first, "b.py": "import p.a as m\nm.P = 'b'\n"})[0]), [])
        self.assertEqual(told(ran({"p/a.py": first, "b.py": "import p.a as m\nm.P = 'b'\n"}, "p/a.py")[0]), [])
        self.assertEqual(len(told(ran({"p/a.py": first, "b.py": "import p.a as m\nm.Q = 'b'\n"})[0])), 1)

    def test_hostile_files_are_named_and_the_rest_goes_on(self) -> None:
        files = {
            "brackets.py": "import re\nre.compile(P)\nx = " + "(" * 5000, "old.py": "import re\nre.compile(P)\nprint 'x'\n",
            "nul.py": b"import re\nre.compile(P)\n\0\n", "good.py": "import re\nP = 'a'\nre.compile(P)\n", "nb.ipynb": "{",
        }
        findings, summary = ran(files)
        self.assertEqual(told(findings), [("good.py", 3, "a", "degree")])
        self.assertIn("nb.ipynb", {it.path for it in summary.not_looked})
        for path in ("brackets.py", "old.py", "nul.py"):
            self.assertTrue(any(path in it for it in (*summary.notes, *(one.path for one in summary.not_looked))), path)

    def test_notebook(self) -> None:
        cells = [
            {"cell_type": "markdown", "source": "re.compile('a')"},
            {"cell_type": "code", "source": ["%matplotlib inline\n", "import re\n", f"P = {BAD!r}\n"]},
            {"cell_type": "code", "source": "!ls\nx = re.compile(P)\nprint 'old'"},
            {"cell_type": "code", "source": f"y = 1\n\nx = re.compile(P)\nre.search({BAD!r}, y)"},
        ]
        findings, summary = ran({"n.ipynb": json.dumps({"cells": cells})})
        rows = [("n.ipynb", 3, "exponential"), ("n.ipynb", 4, "exponential")]
        self.assertEqual([(*it[:2], it[3]) for it in told(findings)], rows)
        sites = [it.site for it in findings if it.site]
        self.assertEqual([it.cell for it in sites], [4, 4])
        self.assertEqual([(it.name, it.line) for it in sites[0].holders], [("P, cell 2", 3)])
        self.assertIn("n.ipynb, cell 3", {it.path for it in summary.not_looked})

    def test_rows_of_a_user(self) -> None:
        row = '[[taker]]\ncall = ["mylib.{}"]\npattern = 1\nmode = "{}"\n'
        files = {"a.py": f"import mylib\nmylib.check('x', {BAD!r})\nmylib.other('x', {BAD!r})\n",
                 "t.toml": row.format("check", "fullmatch") + row.format("other", "find")}
        findings, summary = ran(files, "--takers", "t.toml")
        self.assertEqual([(it.place.line, it.mode, it.entry.kind) for it in findings], [(2, "fullmatch", "exponential")])
        self.assertTrue(any("mode has to be one of" in it for it in summary.notes))

    def test_a_word_that_stands_for_a_part(self) -> None:
        files = {"a.py": "import re\ndef f(x):\n    return re.search('^' + re.escape(x) + '(a+)+$', 's')\n"}
        site = ran(files)[0][0].site
        assert site is not None
        self.assertEqual((site.stands_in, site.notes), (True, ("with 'word' for re.escape(x)",)))
        with folder({".git/HEAD": "", "out/x": "", **files}) as top, contextlib.redirect_stdout(io.StringIO()):
            self.assertEqual(main(["check", *(f"--write={it}=out/{it}" for it in FORMATS)]), 1)
            for it in FORMATS:
                with self.subTest(layout=it):
                    text = html.unescape((top / "out" / it).read_text(encoding="utf-8"))
                    self.assertIn("with 'word' for re.escape(x)", text)

    def test_each_layout_says_that_a_pattern_is_in_a_test(self) -> None:
        files = {"tests/a.py": "import re\nre.search('(a+)+$', 's')\n",
                 "test_b.py": "import re\nP = '(a+)+$'\nre.search(P, 's')\n"}
        with folder({".git/HEAD": "", "out/x": "", **files}) as top, contextlib.redirect_stdout(io.StringIO()):
            main(["check", *(f"--write={it}=out/{it}" for it in FORMATS)])
            for it in FORMATS:
                with self.subTest(layout=it):
                    self.assertGreater((top / "out" / it).read_text(encoding="utf-8").count("in a test"), 1)


if __name__ == "__main__":
    unittest.main()
