"""PLY: a rule's pattern made of others by the decorator TOKEN."""
# pattern: '([_A-Za-z]([_A-Za-z]|[0-9])*)'
from ply.lex import TOKEN
digit = r"([0-9])"
nondigit = r"([_A-Za-z])"
identifier = r"([_A-Za-z]" + r"([_A-Za-z]|[0-9])*)"
@TOKEN(identifier)
def t_ID(t):
    return t
