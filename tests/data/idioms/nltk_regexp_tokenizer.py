"""NLTK, tokenizers: words, money and anything else that isn't a space."""
# pattern: '\\w+|\\$[\\d\\.]+|\\S+'
from nltk.tokenize import RegexpTokenizer
tokenizer = RegexpTokenizer(r"\w+|\$[\d\.]+|\S+")
