"""Plain Python: operators joined by re.escape."""
# pattern: '\\*\\*|\\+|\\-'
import re
OPERATORS = ("**", "+", "-")
OPERATOR = re.compile("|".join(map(re.escape, OPERATORS)))
