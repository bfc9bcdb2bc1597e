"""NLTK, tokenizers: the function regexp_tokenize."""
# pattern: '\\w+(-\\w+)*'
from nltk.tokenize import regexp_tokenize
words = regexp_tokenize("self-made words", pattern=r"\w+(-\w+)*")
