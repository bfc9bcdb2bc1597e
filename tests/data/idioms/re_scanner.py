"""re.Scanner: a list of patterns with what to do for each."""
# pattern: '[a-z_]\\w*'
# pattern: '\\s+'
import re
scanner = re.Scanner([(r"[a-z_]\w*", lambda scanner, text: ("name", text)), (r"\s+", None)])
