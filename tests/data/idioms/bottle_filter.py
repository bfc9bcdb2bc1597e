"""Bottle, routing: a filter of one's own gives a pattern and two functions."""
# pattern: '\\d+(,\\d+)*'
from bottle import Bottle
app = Bottle()
def list_filter(config):
    regexp = r"\d+(,\d+)*"
    return regexp, lambda match: match.split(","), lambda numbers: ",".join(numbers)
app.router.add_filter("list", list_filter)
