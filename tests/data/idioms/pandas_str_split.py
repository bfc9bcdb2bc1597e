"""pandas, text data: str.split by a pattern."""
# pattern: '\\s*[,;]\\s'
import pandas as pd
parts = pd.Series(["a, b; c"]).str.split(r"\s*[,;]\s", expand=True, regex=True)
