"""Plain Python: characters of the module string."""
# pattern: '[0123456789]+'
import re
import string
DIGITS = re.compile("[" + string.digits + "]+")
