"""MongoEngine: a field's pattern."""
# pattern: '^[a-z0-9-]+$'
from mongoengine import Document, StringField
class Page(Document):
    slug = StringField(required=True, regex=r"^[a-z0-9-]+$")
