"""Plain Python: a field of an object made of constants."""
# pattern: 'rule\\d'
import re
from typing import NamedTuple
class Rule(NamedTuple):
    name: str
    form: str
RULES = (Rule("one", r"rule\d"),)
def applies(text):
    return [it for it in RULES if re.search(it.form, text)]
