"""Cerberus, validation rules: the rule regex."""
# pattern: '^[a-zA-Z0-9_.+-]+@[a-z]+$'
from cerberus import Validator
v = Validator({"email": {"type": "string", "regex": "^[a-zA-Z0-9_.+-]+@[a-z]+$"}})
