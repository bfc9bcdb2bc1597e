"""jsonschema: a schema in a constant, with nested properties."""
# pattern: '^\\d{5}(-\\d{4})?$'
from jsonschema import validate
SCHEMA = {
    "type": "object",
    "properties": {"address": {"type": "object", "properties": {"zip": {"type": "string", "pattern": r"^\d{5}(-\d{4})?$"}}}},
}
def check(data):
    validate(data, SCHEMA)
