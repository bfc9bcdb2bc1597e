"""Django, validators: RegexValidator with its arguments by name, flags too."""
# pattern: '^(yes|no)$'
import re
from django.core import validators
check = validators.RegexValidator(regex="^(yes|no)$", message="?", code="nomatch", inverse_match=True, flags=re.IGNORECASE)
