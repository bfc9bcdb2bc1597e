"""pandas, text data: str.findall and str.count."""
# pattern: 'on$|at$'
# pattern: '[aeiou]{2}'
import pandas as pd
s = pd.Series(["Lion", "Monkey"])
ends, counts = s.str.findall(r"on$|at$"), s.str.count(r"[aeiou]{2}")
