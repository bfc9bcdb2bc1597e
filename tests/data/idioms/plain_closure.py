"""Plain Python: a name of the function around."""
# pattern: 'inner\\d'
import re
def outer(texts):
    form = r"inner\d"
    def inner(text):
        return re.search(form, text)
    return list(map(inner, texts))
