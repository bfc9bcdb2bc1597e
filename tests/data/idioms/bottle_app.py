"""Bottle, routing: routes of an application."""
# pattern: '^(/images/(?P<filename>.*\\.png))$'
from bottle import Bottle, static_file
app = Bottle()
@app.get(r"/images/<filename:re:.*\.png>")
def image(filename):
    return static_file(filename, root="/img", mimetype="image/png")
