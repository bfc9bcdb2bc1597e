"""Werkzeug, routing: a subclass of UnicodeConverter."""
# pattern: '[^/]+(?:/[^/]+)?'
from werkzeug.routing.converters import UnicodeConverter
class PairConverter(UnicodeConverter):
    regex = "[^/]+(?:/[^/]+)?"
