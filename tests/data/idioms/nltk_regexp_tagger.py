"""NLTK, taggers: pairs of a pattern and a tag."""
# pattern: '^-?[0-9]+(\\.[0-9]+)?$'
# pattern: '.*able$'
from nltk.tag import RegexpTagger
tagger = RegexpTagger([(r"^-?[0-9]+(\.[0-9]+)?$", "CD"), (r".*able$", "JJ")])
