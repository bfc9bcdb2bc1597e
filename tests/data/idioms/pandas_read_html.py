"""pandas, reading: read_html takes the tables whose text a pattern matches."""
# pattern: 'Metcalf Bank( [A-Z]\\.)?'
import pandas as pd
tables = pd.read_html("https://example.org/banks.html", match=r"Metcalf Bank( [A-Z]\.)?")
