"""Werkzeug, routing: a converter that sets its pattern when it is made."""
# pattern: '[a-z]{2}(?:-[A-Z]{2})?'
from werkzeug.routing import BaseConverter
class LanguageConverter(BaseConverter):
    def __init__(self, url_map):
        super().__init__(url_map)
        self.regex = r"[a-z]{2}(?:-[A-Z]{2})?"
