"""scikit-learn, compose: columns by a pattern."""
# pattern: '^(rating|price)_'
from sklearn.compose import make_column_selector
columns = make_column_selector(pattern="^(rating|price)_")
