"""FormEncode: the validator Regex, and a subclass with the pattern as an attribute."""
# pattern: '^[a-zA-Z_]+$'
# pattern: '^[^ ].*'
from formencode import validators
names = validators.Regex(regex=r"^[a-zA-Z_]+$")
class Text(validators.Regex):
    regex = r"^[^ ].*"
