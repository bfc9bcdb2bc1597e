"""pandas, text data: str.replace with regex=True, where the new text may be a function."""
# pattern: '^.a|dog(?:gy)?'
import pandas as pd
s = pd.Series(["Aaba", "Baca", "dog"]).str.replace("^.a|dog(?:gy)?", "XX-XX ", case=False, regex=True)
