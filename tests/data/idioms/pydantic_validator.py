"""pydantic 2, validators: a function of a field that uses re itself."""
# pattern: '^(\\d{4})-(\\d{2})$'
import re
from pydantic import BaseModel, field_validator
MONTH = r"^(\d{4})-(\d{2})$"
class Bill(BaseModel):
    month: str

    @field_validator("month")
    @classmethod
    def check(cls, value: str) -> str:
        if not re.match(MONTH, value):
            raise ValueError("no month")
        return value
