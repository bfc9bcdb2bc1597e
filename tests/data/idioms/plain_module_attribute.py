"""Plain Python: a constant of a module, by its name."""
# pattern: '0x[0-9a-f]+'
import re
import plain_attribute_parts as parts
NUMBER = re.compile("0x" + parts.HEX + "+")
