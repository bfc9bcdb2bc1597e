"""pydantic 2, types: constr makes a type with a pattern."""
# pattern: '^[A-Z]{2}$'
from pydantic import BaseModel, constr
class Address(BaseModel):
    country: constr(strip_whitespace=True, to_upper=True, pattern=r"^[A-Z]{2}$")
