"""Plain Python: a constant by a star import of another file."""
# pattern: '^\\*\\s+item'
import re
from plain_star_import_parts import *
ITEM = re.compile(STAR + "item")
