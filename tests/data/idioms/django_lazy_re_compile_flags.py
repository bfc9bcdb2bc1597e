"""Django's own modules: attributes of a validator's class with flags."""
# pattern: '((?:[A-Z0-9](?:[A-Z0-9-]{0,61}[A-Z0-9])?\\.)+)[A-Z]{2,63}\\Z'
import re
from django.utils.regex_helper import _lazy_re_compile
class EmailValidator:
    domain_regex = _lazy_re_compile(
        r"((?:[A-Z0-9](?:[A-Z0-9-]{0,61}[A-Z0-9])?\.)+)"
        r"[A-Z]{2,63}\Z", re.IGNORECASE)
