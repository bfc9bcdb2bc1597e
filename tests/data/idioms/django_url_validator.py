"""Django, validators: URLValidator joins the parts of its pattern in the class's body."""
# pattern: '^[a-z]+://[a-z0-9](?:[a-z0-9-]{0,61}[a-z0-9])?$'
import re
from django.core.validators import RegexValidator
from django.utils.regex_helper import _lazy_re_compile
class URLValidator(RegexValidator):
    hostname_re = r"[a-z0-9](?:[a-z0-9-]{0,61}[a-z0-9])?"
    regex = _lazy_re_compile(r"^[a-z]+://" + hostname_re + r"$", re.IGNORECASE)
