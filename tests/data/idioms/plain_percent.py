"""Plain Python: % with a dictionary of parts."""
# pattern: '(\\w+)\\s*=\\s*(".*?")'
import re
PARTS = {"name": r"\w+", "text": r'".*?"'}
PAIR = re.compile(r"(%(name)s)\s*=\s*(%(text)s)" % PARTS)
