"""Pygments, writing a lexer: states with tuples of a pattern and a token."""
# pattern: '[^/]+'
# pattern: '/\\*'
from pygments.lexer import RegexLexer
from pygments.token import Comment, Text
class CppCommentLexer(RegexLexer):
    name = "Example"
    tokens = {"root": [(r"[^/]+", Text), (r"/\*", Comment.Multiline, "comment")]}
