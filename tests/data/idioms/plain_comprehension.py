"""Plain Python: a comprehension over a constant."""
# pattern: '\\.pyc$'
# pattern: '^build/'
import re
LEFT_OUT = (r"\.pyc$", "^build/")
PATTERNS = [re.compile(it) for it in LEFT_OUT]
