"""Plain Python: a commented pattern in a constant."""
# pattern: '\n    (\\d+)   # the number\n    \\s*[a-z]  # its unit\n'
import re
QUANTITY = r"""
    (\d+)   # the number
    \s*[a-z]  # its unit
"""
is_quantity = re.compile(QUANTITY, re.VERBOSE).match
