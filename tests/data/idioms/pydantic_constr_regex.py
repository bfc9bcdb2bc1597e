"""pydantic 1, types: constr's argument was called regex."""
# pattern: '^[A-Z]{3}$'
from pydantic import BaseModel, constr
Currency = constr(regex="^[A-Z]{3}$")
class Price(BaseModel):
    currency: Currency
