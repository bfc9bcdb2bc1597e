"""pydantic 2, migration: the old interface stays as pydantic.v1."""
# pattern: '^\\w{1,8}$'
from pydantic.v1 import BaseModel, Field
class Model(BaseModel):
    name: str = Field("x", regex=r"^\w{1,8}$")
