"""NLTK, stemmers: endings that are cut off."""
# pattern: 'ing$|s$|e$|able$'
from nltk.stem import RegexpStemmer
stem = RegexpStemmer("ing$|s$|e$|able$", min=4)
