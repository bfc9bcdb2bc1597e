"""Plain Python: a dictionary that is made by keywords."""
# pattern: '[a-z]+:'
# pattern: '"[^"]*"'
import re
FORMS = dict(key=r"[a-z]+:", text=r'"[^"]*"')
COMPILED = {name: re.compile(form) for name, form in FORMS.items()}
