"""Django, contrib.auth: a validator of names as a subclass of RegexValidator."""
# pattern: '^[\\w.@+-]+\\Z'
from django.core import validators
from django.utils.deconstruct import deconstructible
@deconstructible
class ASCIIUsernameValidator(validators.RegexValidator):
    regex = r"^[\w.@+-]+\Z"
    message = "Enter a valid username."
    flags = 0
