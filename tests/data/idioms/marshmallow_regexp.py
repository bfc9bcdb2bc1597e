"""marshmallow, validators: Regexp for a field."""
# pattern: '^[A-Z][a-z]+$'
from marshmallow import Schema, fields, validate
class Person(Schema):
    name = fields.Str(validate=validate.Regexp(r"^[A-Z][a-z]+$", error="no name"))
