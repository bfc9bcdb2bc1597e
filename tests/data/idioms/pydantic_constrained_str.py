"""pydantic 1, types: a subclass of ConstrainedStr with the pattern as an attribute."""
# pattern: '^[a-f0-9]{40}$'
from pydantic import ConstrainedStr
class Sha1(ConstrainedStr):
    strip_whitespace = True
    regex = "^[a-f0-9]{40}$"
