"""pandas, indexing: filter chooses columns by a pattern."""
# pattern: 'e[0-9]?$'
import pandas as pd
df = pd.DataFrame({"one": [1], "two": [2]}).filter(regex="e[0-9]?$", axis=1)
