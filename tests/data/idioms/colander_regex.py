"""colander: Regex as a validator of a node."""
# pattern: '^[A-Z]{2}\\d+$'
import colander
class Order(colander.MappingSchema):
    number = colander.SchemaNode(colander.String(), validator=colander.Regex(r"^[A-Z]{2}\d+$", "no number"))
