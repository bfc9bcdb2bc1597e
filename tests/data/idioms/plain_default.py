"""Plain Python: the default of a parameter."""
# pattern: '[,;]\\s?'
import re
def split(text, separator=r"[,;]\s?"):
    return re.split(separator, text)
