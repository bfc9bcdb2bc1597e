"""pandas, replacing: regex=True makes the first argument a pattern."""
# pattern: '\\s*\\.\\s'
import numpy as np
import pandas as pd
df = pd.DataFrame({"b": ["a", "."]}).replace(r"\s*\.\s", np.nan, regex=True)
