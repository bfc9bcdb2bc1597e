"""FastAPI, headers and cookies: validation by a pattern, kept in a constant."""
# pattern: '^Bearer [\\w.-]+$'
from fastapi import Header
TOKEN = r"^Bearer [\w.-]+$"
def user(authorization: str = Header(pattern=TOKEN)):
    return authorization
