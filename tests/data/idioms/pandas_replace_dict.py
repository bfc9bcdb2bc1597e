"""pandas, replacing: a dictionary from patterns to new texts."""
# pattern: '^ba.$'
# pattern: 'fo{2}'
import pandas as pd
df = pd.DataFrame({"A": ["bat", "foo"]}).replace(regex={r"^ba.$": "new", r"fo{2}": "xyz"})
