"""Plain Python: flags in a constant."""
# pattern: '^both .*$'
import re
FLAGS = re.IGNORECASE | re.MULTILINE
BOTH = re.compile("^both .*$", FLAGS)
