"""NLTK book, chapter 5: the tagger's pairs in a name."""
# pattern: '.*ing$'
# pattern: '.*ed$'
import nltk
patterns = [
    (r".*ing$", "VBG"),                # gerunds
    (r".*ed$", "VBD"),                 # simple past
]
regexp_tagger = nltk.RegexpTagger(patterns)
