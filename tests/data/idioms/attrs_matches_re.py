"""attrs, validators: matches_re, a full match by default."""
# pattern: '(^[a-zA-Z0-9_.+-]+@[a-zA-Z0-9-]+\\.[a-z]+$)'
from attrs import define, field, validators
@define
class User:
    email = field(validator=validators.matches_re(r"(^[a-zA-Z0-9_.+-]+@[a-zA-Z0-9-]+\.[a-z]+$)"))
