"""NLTK book, chapter 3: a commented pattern in a name."""
# pattern: '(?x)\n    (?:[A-Z]\\.)+        # abbreviations\n  | \\w+(?:-\\w+)*        # words\n'
import nltk
pattern = r"""(?x)
    (?:[A-Z]\.)+        # abbreviations
  | \w+(?:-\w+)*        # words
"""
words = nltk.regexp_tokenize("That U.S.A. poster-print", pattern)
