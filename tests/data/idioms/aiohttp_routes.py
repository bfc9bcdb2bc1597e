"""aiohttp, server: routes by decorators of a table."""
# pattern: '/shelf/(?P<code>[a-z]+-[0-9]{2})'
from aiohttp import web
routes = web.RouteTableDef()
@routes.get(r"/shelf/{code:[a-z]+-[0-9]{2}}")
async def shelf(request):
    return web.Response(text=request.match_info["code"])
