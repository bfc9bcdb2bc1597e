"""Plain Python: functools.partial of a function of re."""
# pattern: '\\s+#.*$'
import functools
import re
without_comment = functools.partial(re.sub, r"\s+" + "#.*$", "")
