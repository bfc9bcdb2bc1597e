"""pandas, missing data and replacing: the argument regex of replace."""
# pattern: '^ba.{1,2}$'
import pandas as pd
df = pd.DataFrame({"A": ["bat", "foo"]}).replace(regex=r"^ba.{1,2}$", value="new")
