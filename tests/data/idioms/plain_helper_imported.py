"""Plain Python: a helper that is cached."""
# pattern: '^cached\\d+$'
import functools
import re
@functools.lru_cache(maxsize=None)
def compiled(pattern):
    return re.compile(pattern)
FOUND = compiled(r"^cached\d+$").match("cached1")
