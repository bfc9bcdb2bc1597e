"""pandas, reading: a separator of more than one character is a pattern."""
# pattern: '\\s*[,|]\\s*'
import pandas as pd
SEPARATOR = r"\s*[,|]\s*"
df = pd.read_csv("tmp.csv", sep=SEPARATOR, engine="python")
