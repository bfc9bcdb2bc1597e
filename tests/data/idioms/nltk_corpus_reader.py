"""NLTK, corpus readers: the files of a corpus by a pattern."""
# pattern: '(?!\\.).*\\.txt'
from nltk.corpus.reader import PlaintextCorpusReader
corpus = PlaintextCorpusReader("texts", r"(?!\.).*\.txt", encoding="utf8")
