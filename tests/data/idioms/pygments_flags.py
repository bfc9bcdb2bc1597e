"""Pygments, writing a lexer: a lexer with flags of its own."""
# pattern: '(if|then)\\b'
import re
from pygments.lexer import RegexLexer, bygroups
from pygments.token import Keyword
class BasicLexer(RegexLexer):
    flags = re.IGNORECASE
    tokens = {"root": [(r"(if|then)\b", bygroups(Keyword))]}
