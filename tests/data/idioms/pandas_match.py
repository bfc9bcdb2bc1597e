"""pandas, text data: str.match and str.fullmatch."""
# pattern: '[0-9][a-z]{1,3}'
# pattern: '[0-9]{1,2}[a-z]'
import pandas
pattern = r"[0-9][a-z]{1,3}"
s = pandas.Series(["1a", "22b"])
one, other = s.str.match(pattern, na=False), s.str.fullmatch(r"[0-9]{1,2}[a-z]")
