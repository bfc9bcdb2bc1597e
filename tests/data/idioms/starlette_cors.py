"""Starlette, middleware: a list of Middleware objects for the application."""
# pattern: 'https://[a-z]+\\.example\\.org'
from starlette.applications import Starlette
from starlette.middleware import Middleware
from starlette.middleware.cors import CORSMiddleware
app = Starlette(middleware=[Middleware(CORSMiddleware, allow_origin_regex=r"https://[a-z]+\.example\.org")])
