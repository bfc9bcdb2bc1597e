"""Plain Python: map over a list."""
# pattern: '^\\.git$'
# pattern: '~$'
import re
IGNORED = list(map(re.compile, [r"^\.git$", "~$"]))
