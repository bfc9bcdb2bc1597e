"""Django, URL dispatcher: a path converter is a class with `regex`, `to_python` and `to_url`."""
# pattern: '[0-9]{4}'
class FourDigitYearConverter:
    regex = "[0-9]{4}"

    def to_python(self, value):
        return int(value)

    def to_url(self, value):
        return "%04d" % value
