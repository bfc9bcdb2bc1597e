"""FastAPI before version 0.100: the argument regex."""
# pattern: '^[a-z]{3,50}$'
from fastapi import FastAPI, Query
app = FastAPI()
@app.get("/items/")
async def read_items(q: str = Query(default=None, regex="^[a-z]{3,50}$")):
    return q
