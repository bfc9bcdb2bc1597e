"""Django: the module of urls under another name, with a prefix in a constant."""
# pattern: '^api/v1/items/\\d+/$'
from django import urls as u
PREFIX = r"^api/v1/"
urlpatterns = [u.re_path(PREFIX + r"items/\d+/$", view)]
