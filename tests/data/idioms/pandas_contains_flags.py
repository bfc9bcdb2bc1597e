"""pandas, text data: str.contains with flags and na."""
# pattern: '^house|dog'
import re
import pandas as pd
PETS = "^house|dog"
found = pd.Series(["house", "Dog"]).str.contains(pat=PETS, flags=re.IGNORECASE, regex=True, na=False)
