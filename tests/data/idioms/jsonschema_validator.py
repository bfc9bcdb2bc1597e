"""jsonschema: a validator of a draft."""
# pattern: '^#[0-9a-fA-F]+$'
from jsonschema import Draft7Validator
validator = Draft7Validator({"items": {"anyOf": [{"pattern": "^#[0-9a-fA-F]+$"}, {"type": "null"}]}})
