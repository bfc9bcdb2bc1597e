"""Plain Python: a lambda around re.compile."""
# pattern: '(?:ab)c+'
import re
verbose = lambda text: re.compile(text, re.VERBOSE)
ABC = verbose(r"(?:ab)c+")
