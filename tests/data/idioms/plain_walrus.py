"""Plain Python: a name bound by := ."""
# pattern: '^w+$'
import re
if (form := "^w+" + "$") and re.match(form, "w"):
    print(form)
