"""pydantic 2, fields: a text's pattern in Field."""
# pattern: '^\\d{3}-\\d{4}$'
from pydantic import BaseModel, Field
class Item(BaseModel):
    phone: str = Field(..., min_length=3, pattern=r"^\d{3}-\d{4}$")
