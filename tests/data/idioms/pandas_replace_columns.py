"""pandas, replacing: a dictionary from columns to patterns."""
# pattern: '^ba.$'
import pandas as pd
df = pd.DataFrame({"A": ["bat", "foo"]}).replace({"A": r"^ba.$"}, {"A": "new"}, regex=True)
