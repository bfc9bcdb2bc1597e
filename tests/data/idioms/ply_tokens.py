"""PLY: rules of the lexer as texts and in docstrings."""
# pattern: '\\+'
# pattern: '[a-zA-Z_][a-zA-Z_0-9]*'
# pattern: '\\d+'
import ply.lex as lex
tokens = ("PLUS", "ID", "NUMBER")
t_PLUS = r"\+"
t_ID = r"[a-zA-Z_][a-zA-Z_0-9]*"
def t_NUMBER(t):
    r"\d+"
    t.value = int(t.value)
    return t
lexer = lex.lex()
