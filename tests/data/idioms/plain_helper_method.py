"""Plain Python: a method that compiles, called on self."""
# pattern: '\\[m(\\d+)\\]'
import re
class Reader:
    def find(self, pattern, text):
        return re.search(pattern, text)
    def number(self, text):
        return self.find(r"\[m(\d+)\]", text)
