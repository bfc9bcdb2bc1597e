"""Plain Python: a list that grows before it is gone through."""
# pattern: '^first'
# pattern: 'last$'
import re
FORMS = ["^first"]
FORMS.append("last$")
PATTERNS = [re.compile(it) for it in FORMS]
