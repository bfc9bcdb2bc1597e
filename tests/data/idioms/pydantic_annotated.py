"""pydantic 2, fields: Field as a part of Annotated."""
# pattern: '^[a-z_]+$'
from typing import Annotated
from pydantic import BaseModel, Field
class Item(BaseModel):
    name: Annotated[str, Field(strict=True, pattern=r"^[a-z_]+$")]
