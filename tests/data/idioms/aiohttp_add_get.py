"""aiohttp, server: a variable part of a resource with its own pattern."""
# pattern: '/items/(?P<name>\\d+)'
from aiohttp import web
app = web.Application()
app.router.add_get(r"/items/{name:\d+}", handler)
