"""scikit-learn, text features: what a token is."""
# pattern: '(?u)\\b\\w+\\b'
from sklearn.feature_extraction.text import CountVectorizer
bigrams = CountVectorizer(ngram_range=(1, 2), token_pattern=r"(?u)\b\w+\b", min_df=1)
