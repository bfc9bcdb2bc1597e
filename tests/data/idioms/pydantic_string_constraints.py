"""pydantic 2, types: StringConstraints in Annotated."""
# pattern: '^[a-z]+-\\d+$'
from typing import Annotated
from pydantic import BaseModel, StringConstraints
class Model(BaseModel):
    key: Annotated[str, StringConstraints(strip_whitespace=True, pattern=r"^[a-z]+-\d+$")]
