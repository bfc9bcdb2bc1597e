"""NLTK, tokenizers: a tokenizer of one's own is a subclass that hands a pattern up."""
# pattern: '(\\w+)|[^\\w\\s]+'
from nltk.tokenize import RegexpTokenizer
class WordPunct(RegexpTokenizer):
    def __init__(self):
        RegexpTokenizer.__init__(self, r"(\w+)|[^\w\s]+")
