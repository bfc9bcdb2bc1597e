"""Plain Python: a pattern that grows by +=."""
# pattern: '^one(,two)?$'
import re
LINE = "^one"
LINE += "(,two)?$"
IS_LINE = re.compile(LINE)
