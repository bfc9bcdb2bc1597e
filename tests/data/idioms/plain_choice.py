"""Plain Python: a conditional expression."""
# pattern: '\\d+'
# pattern: '\\d+(?:\\.\\d+)?'
import re
def numbers(text, whole):
    return re.findall(r"\d+" if whole else r"\d+(?:\.\d+)?", text)
