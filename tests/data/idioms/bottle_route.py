"""Bottle, routing: the filter re takes a pattern."""
# pattern: '^(/archive/(?P<name>[a-z]+\\d?))$'
from bottle import route
@route("/archive/<name:re:[a-z]+\\d?>")
def archive(name):
    return name
