"""Plain Python: an attribute of the class, by its name and by cls."""
# pattern: '^-\\w$'
import re
class Options:
    SHORT = r"^-\w$"
    @classmethod
    def is_short(cls, word):
        return re.match(cls.SHORT, word)
