"""Plain Python: a helper around re.compile; each call of it is a place."""
# pattern: '^alpha$'
# pattern: '^beta\\d$'
import re
def whole(pattern):
    return re.compile("^" + pattern + "$")
ALPHA, BETA = whole("alpha"), whole(r"beta\d")
