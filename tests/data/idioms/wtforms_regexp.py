"""WTForms, validators: Regexp in a form's field."""
# pattern: '^[\\w.@+-]+$'
from wtforms import Form, StringField, validators
class Registration(Form):
    name = StringField("Name", [validators.Length(min=4), validators.Regexp(r"^[\w.@+-]+$")])
