"""Plain Python: fnmatch.translate of a constant."""
# translate: '*.py[co]'
import fnmatch
import re
COMPILED = re.compile(fnmatch.translate("*.py[co]"))
