"""NLTK, tokenizers: a pattern for what is between the tokens."""
# pattern: '\\s+|_+'
import nltk
tokenizer = nltk.RegexpTokenizer(pattern=r"\s+|_+", gaps=True)
