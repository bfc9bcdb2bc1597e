"""Plain Python: a dictionary's keys, sorted and joined."""
# pattern: '(a|bc|d)\\d'
import re
UNITS = {"d": 1, "a": 2, "bc": 3}
UNIT = re.compile("(" + "|".join(sorted(UNITS)) + r")\d")
