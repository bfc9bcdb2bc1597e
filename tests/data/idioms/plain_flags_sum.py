"""Plain Python: flags that are added instead of joined by |."""
# pattern: '^sum\\b'
import re
SUM = re.compile("^sum" r"\b", re.I + re.U)
