"""jsonschema: a schema that is put together of constants."""
# pattern: '^urn:[a-z0-9]+:.*$'
import jsonschema
URN = r"^urn:[a-z0-9]+:.*$"
NAME = {"type": "string", "pattern": URN}
SCHEMA = {"type": "object", "properties": {"name": NAME}}
jsonschema.validate({"name": "urn:x:y"}, SCHEMA)
