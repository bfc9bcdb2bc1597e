"""Werkzeug, routing: a converter of one's own with its pattern."""
# pattern: '(?:yes|no|maybe)'
from werkzeug.routing import BaseConverter
class BooleanConverter(BaseConverter):
    regex = r"(?:yes|no|maybe)"

    def to_python(self, value):
        return value == "yes"
