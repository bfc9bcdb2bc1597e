"""Plain Python: an attribute of the class, by self."""
# pattern: '^--\\w+'
import re
class Options:
    LONG = r"^--\w+"
    def is_long(self, word):
        return re.match(self.LONG, word)
