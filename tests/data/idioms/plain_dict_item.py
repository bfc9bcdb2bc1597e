"""Plain Python: one item of a dictionary of constants."""
# pattern: '^v\\d+$'
import re
FORMS = dict(version=r"^v\d+$", name=r"\w+")
def is_version(text):
    return re.match(FORMS["version"], text) is not None
