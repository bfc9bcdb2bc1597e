"""pandas, replacing: a list of patterns."""
# pattern: '^ba.$'
# pattern: '(foo)+'
import pandas as pd
df = pd.DataFrame({"A": ["bat", "foo"]}).replace(regex=[r"^ba.$", r"(foo)+"], value="new")
