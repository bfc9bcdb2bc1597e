"""Plain Python: a constant of another file."""
# pattern: '^[A-Za-z_]\\w*='
import re
from plain_import_parts import NAME
ASSIGNED = re.compile("^" + NAME + "=")
