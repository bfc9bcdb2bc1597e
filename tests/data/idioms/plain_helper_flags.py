"""Plain Python: a helper that takes flags too."""
# pattern: '\\bone\\b'
import re
def word(text, flags=re.IGNORECASE):
    return re.compile(r"\b%s\b" % text, flags)
ONE = word("one", flags=re.M)
