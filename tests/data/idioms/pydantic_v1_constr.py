"""pydantic 2, migration: constr of pydantic.v1, by the module."""
# pattern: '^[0-9]{5}$'
import pydantic.v1 as pydantic
ZipCode = pydantic.constr(regex=r"^[0-9]{5}$")
