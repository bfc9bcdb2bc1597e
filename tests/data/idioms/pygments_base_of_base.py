"""Pygments: the base is a class whose own base is RegexLexer."""
# pattern: '\\b(class|def)\\b'
from pygments.lexer import RegexLexer
from pygments.token import Keyword
class Common(RegexLexer):
    priority = 0.1
class Mine(Common):
    tokens = {"root": [(r"\b(class|def)\b", Keyword)]}
