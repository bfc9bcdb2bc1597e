"""pandas, text data: str.replace with a compiled pattern."""
# pattern: '^.a|cat(?:ty)?'
import re
import pandas as pd
regex_pat = re.compile(r"^.a|cat(?:ty)?", flags=re.IGNORECASE)
s = pd.Series(["cat"]).str.replace(regex_pat, "XX-XX ", regex=True)
