"""pandas, reshaping: the suffix of wide_to_long is a pattern."""
# pattern: '[a-z]+\\d?'
import pandas as pd
long = pd.wide_to_long(df, stubnames="ht", i=["famid", "birth"], j="age", sep="_", suffix=r"[a-z]+\d?")
