"""aiohttp, server: web.get within add_routes; two variables."""
# pattern: '/(?P<user>\\w+)/(?P<key>[0-9a-f]{4})'
from aiohttp import web
app = web.Application()
app.add_routes([web.get(r"/{user:\w+}/{key:[0-9a-f]{4}}", handler), web.post("/{plain}", other)])
