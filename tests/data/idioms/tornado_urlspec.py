"""Tornado: routes by URLSpec."""
# pattern: '/img/(.*)\\.png'
import tornado.web
spec = tornado.web.URLSpec(r"/img/(.*)\.png", tornado.web.StaticFileHandler)
