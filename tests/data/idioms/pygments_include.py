"""Pygments, writing a lexer: states that take in others, and empty defaults."""
# pattern: '[a-z]+(?=\\()'
from pygments.lexer import RegexLexer, default, include, words
from pygments.token import Name, Keyword
class ExampleLexer(RegexLexer):
    tokens = {
        "names": [(r"[a-z]+(?=\()", Name.Function)],
        "root": [include("names"), (words(("if", "else"), suffix=r"\b"), Keyword), default("#pop")],
    }
