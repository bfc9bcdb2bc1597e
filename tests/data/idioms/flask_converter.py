"""Flask: a converter is put in the application's map of URLs."""
# pattern: '[0-9a-f]{8}'
from flask import Flask
from werkzeug.routing import BaseConverter
class HexConverter(BaseConverter):
    regex = "[0-9a-f]{8}"
app = Flask(__name__)
app.url_map.converters["hex"] = HexConverter
