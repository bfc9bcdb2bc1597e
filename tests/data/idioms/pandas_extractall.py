"""pandas, text data: str.extractall gives every match; the pattern has a name."""
# pattern: '(?P<letter>[a-z])(?P<digit>[0-9])'
import pandas as pd
two_groups = "(?P<letter>[a-z])(?P<digit>[0-9])"
found = pd.Series(["a1a2", "b1"]).str.extractall(two_groups)
