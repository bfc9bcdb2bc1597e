"""Django REST framework, format suffixes: a route whose end is the format."""
# pattern: '^snippets/(?P<pk>[0-9]+)\\.(?P<format>[a-z0-9]+)/?$'
from django.urls import re_path
from rest_framework.urlpatterns import format_suffix_patterns
urlpatterns = [re_path(r"^snippets/(?P<pk>[0-9]+)\.(?P<format>[a-z0-9]+)/?$", detail)]
