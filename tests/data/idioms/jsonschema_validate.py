"""jsonschema: a schema that is written where it is used."""
# pattern: '^[a-z]{3}$'
import jsonschema
jsonschema.validate(instance="abc", schema={"type": "string", "pattern": "^[a-z]{3}$"})
