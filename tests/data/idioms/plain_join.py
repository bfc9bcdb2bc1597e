"""Plain Python: alternatives joined from a list of words."""
# pattern: '\\b(?:and|or|not)\\b'
import re
KEYWORDS = ["and", "or", "not"]
KEYWORD = re.compile(r"\b(?:" + "|".join(KEYWORDS) + r")\b")
