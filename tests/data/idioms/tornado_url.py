"""Tornado: routes with names by url()."""
# pattern: '/user/(?P<name>\\w+)'
from tornado.web import Application, url
app = Application([url(r"/user/(?P<name>\w+)", UserHandler, name="user")])
