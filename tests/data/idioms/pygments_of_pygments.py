"""Pygments, writing a lexer: a subclass of a lexer that comes with Pygments, with `inherit`."""
# pattern: '\\$\\w+'
from pygments.lexer import inherit
from pygments.lexers.c_cpp import CppLexer
from pygments.token import Name
class MyCppLexer(CppLexer):
    tokens = {"statements": [(r"\$\w+", Name.Variable), inherit]}
