"""scikit-learn, text features: TfidfVectorizer in a pipeline, the pattern in a constant."""
# pattern: '[a-zA-Z]{3,}'
from sklearn.feature_extraction.text import TfidfVectorizer
from sklearn.pipeline import make_pipeline
WORD = r"[a-zA-Z]{3,}"
model = make_pipeline(TfidfVectorizer(token_pattern=WORD), classifier)
