"""Plain Python: an f-string of constants."""
# pattern: '^(?:[1-9]\\d*)-(?:[1-9]\\d*)$'
import re
INTEGER = r"[1-9]\d*"
RANGE = re.compile(rf"^(?:{INTEGER})-(?:{INTEGER})$")
