"""Django, URL dispatcher: re_path routes by a regular expression, with named groups for the view's arguments."""
# pattern: '^articles/(?P<year>[0-9]{4})/(?P<month>[0-9]{2})/$'
from django.urls import path, re_path
from . import views
urlpatterns = [
    path("articles/2003/", views.special_case_2003),
    re_path(r"^articles/(?P<year>[0-9]{4})/(?P<month>[0-9]{2})/$", views.month_archive),
]
