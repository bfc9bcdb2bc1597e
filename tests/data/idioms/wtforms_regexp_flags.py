"""WTForms, validators: Regexp with flags and a message."""
# pattern: '[a-z]{3}\\d{3}'
import re
from wtforms.validators import Regexp
plate = Regexp(regex=r"[a-z]{3}\d{3}", flags=re.IGNORECASE, message="no plate")
