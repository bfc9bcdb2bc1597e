"""Tornado: handlers for hosts that match a pattern."""
# pattern: '/(\\d+)/edit'
# pattern: '.*\\.example\\.com'
import tornado.web
application = tornado.web.Application([])
application.add_handlers(r".*\.example\.com", [(r"/(\d+)/edit", EditHandler)])
