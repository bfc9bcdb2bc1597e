"""pandas, text data: the columns' names have .str too."""
# pattern: '\\s+\\(.*\\)'
import pandas as pd
frame = pd.read_csv("a.csv")
frame.columns = frame.columns.str.replace(r"\s+\(.*\)", "", regex=True)
