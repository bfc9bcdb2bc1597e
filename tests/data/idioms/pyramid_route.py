"""Pyramid, URL dispatch: a variable part of a route with its own pattern."""
# pattern: '/notes/(?P<key>[a-z0-9]{8})$'
from pyramid.config import Configurator
with Configurator() as config:
    config.add_route("view", r"/notes/{key:[a-z0-9]{8}}")
