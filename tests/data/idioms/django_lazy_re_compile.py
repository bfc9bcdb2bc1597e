"""Django's own modules: a pattern that is compiled when it is used first."""
# pattern: '^[-a-zA-Z0-9_]+\\Z'
from django.core.validators import RegexValidator
from django.utils.regex_helper import _lazy_re_compile
slug_re = _lazy_re_compile(r"^[-a-zA-Z0-9_]+\Z")
validate_slug = RegexValidator(slug_re, "Enter a valid slug.", "invalid")
