"""jsonschema: the keys of patternProperties are patterns."""
# pattern: '^S_\\w*$'
# pattern: '^I_'
import jsonschema
schema = {"type": "object", "patternProperties": {r"^S_\w*$": {"type": "string"}, "^I_": {"type": "integer"}}}
validator = jsonschema.Draft202012Validator(schema)
