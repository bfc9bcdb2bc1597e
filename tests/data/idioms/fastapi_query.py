"""FastAPI, query parameters: validation of a text by a pattern."""
# pattern: '^fixedquery$'
from typing import Annotated, Union
from fastapi import FastAPI, Query
app = FastAPI()
@app.get("/items/")
async def read_items(q: Annotated[Union[str, None], Query(min_length=3, max_length=50, pattern="^fixedquery$")] = None):
    return {"q": q}
