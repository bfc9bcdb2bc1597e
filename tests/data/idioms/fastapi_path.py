"""FastAPI, path parameters: validation by a pattern."""
# pattern: '^[A-Z0-9]{6}$'
import fastapi
app = fastapi.FastAPI()
@app.get("/orders/{number}")
def order(number: str = fastapi.Path(title="The order's number", pattern=r"^[A-Z0-9]{6}$")):
    return number
