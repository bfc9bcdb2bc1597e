"""pandas, reading: the argument delimiter, and read_table."""
# pattern: '\\s+'
# pattern: ';+'
from pandas import read_csv, read_table
df, other = read_table("a.txt", delimiter=r"\s+"), read_csv("b.txt", ";+", header=None)
