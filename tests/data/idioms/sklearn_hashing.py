"""scikit-learn, text features: HashingVectorizer by its module."""
# pattern: '\\S+(?:\\.\\S+)?'
from sklearn.feature_extraction import text
vectorizer = text.HashingVectorizer(n_features=2 ** 10, token_pattern=r"\S+(?:\.\S+)?")
