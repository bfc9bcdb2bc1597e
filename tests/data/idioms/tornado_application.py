"""Tornado, the structure of an application: the routes of Application."""
# pattern: '/story/([0-9]+)'
import tornado.web
def make_app():
    return tornado.web.Application([(r"/", MainHandler), (r"/story/([0-9]+)", StoryHandler, {"db": db})])
