"""Starlette, middleware: the middleware around an application."""
# pattern: 'https?://localhost(:\\d+)?'
from starlette.middleware.cors import CORSMiddleware
app = CORSMiddleware(app=inner, allow_origin_regex=r"https?://localhost(:\d+)?")
