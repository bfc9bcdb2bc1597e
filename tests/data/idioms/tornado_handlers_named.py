"""Tornado: an Application of one's own with a list of handlers."""
# pattern: '/archive/([^/]+)/?'
import tornado.web
class Application(tornado.web.Application):
    def __init__(self):
        handlers = [(r"/archive/([^/]+)/?", ArchiveHandler), (r"/feed", FeedHandler)]
        super().__init__(handlers, debug=True)
