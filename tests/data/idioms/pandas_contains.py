"""pandas, text data: str.contains reads its argument as a pattern."""
# pattern: '[0-9][a-z]'
import pandas as pd
s = pd.Series(["1", "2", "3a", "3b", "03c"])
found = s.str.contains(r"[0-9][a-z]")
