"""pandas, text data: str.extract gives a column for each group."""
# pattern: '(?P<letter>[ab])(?P<digit>\\d)'
import pandas as pd
two = pd.Series(["a1", "b2", "c3"]).str.extract(r"(?P<letter>[ab])(?P<digit>\d)", expand=True)
