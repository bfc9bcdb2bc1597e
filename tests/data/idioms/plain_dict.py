"""Plain Python: a dictionary of patterns, gone through by its items."""
# pattern: '^\\d{4}$'
# pattern: '^\\d{1,2}$'
import re
FORMS = {"year": r"^\d{4}$", "month": r"^\d{1,2}$"}
COMPILED = {}
for name, form in FORMS.items():
    COMPILED[name] = re.compile(form)
