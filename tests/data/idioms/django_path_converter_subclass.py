"""Django, URL dispatcher: a subclass of one of the converters that come with Django."""
# pattern: '[-a-z]+'
from django.urls import register_converter
from django.urls.converters import StringConverter
class LowerConverter(StringConverter):
    regex = "[-a-z]+"
register_converter(LowerConverter, "lower")
