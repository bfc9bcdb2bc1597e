"""Django, URL dispatcher: nested optional arguments below an include."""
# pattern: '^blog/(page-([0-9]+)/)?$'
# pattern: '^(?P<username>\\w+)/blog/'
from django.urls import include, re_path
urlpatterns = [
    re_path(r"^blog/(page-([0-9]+)/)?$", "blog_articles"),
    re_path(route=r"^(?P<username>\w+)/blog/", view=include("foo.urls.blog")),
]
