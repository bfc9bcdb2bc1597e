"""Plain Python: functools.partial that sets the flags; each call of it is a place."""
# pattern: '^part\\d$'
import re
from functools import partial
compile_ignoring = partial(re.compile, flags=re.IGNORECASE)
PART = compile_ignoring(r"^part\d$")
