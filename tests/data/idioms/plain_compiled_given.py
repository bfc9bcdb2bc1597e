"""Plain Python: a compiled pattern handed to re.search is judged where it is made."""
# pattern: 'made (once|twice)'
import re
PATTERN = re.compile(r"made (once|twice)")
def found(text):
    return re.search(PATTERN, text)
