"""aiohttp, server: add_resource and add_route."""
# pattern: '/static/(?P<path>.+\\.css)'
from aiohttp import web
app = web.Application()
resource = app.router.add_resource(r"/static/{path:.+\.css}", name="css")
