"""Pygments, writing a lexer: ExtendedRegexLexer with a context."""
# pattern: '(//[^\\n]*)\\n'
from pygments.lexer import ExtendedRegexLexer
from pygments.token import Comment
class ContextLexer(ExtendedRegexLexer):
    tokens = {"root": [(r"(//[^\n]*)\n", Comment)]}
