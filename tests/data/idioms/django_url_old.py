"""Django 1 and 2: url() in urls.py."""
# pattern: '^polls/(\\d+)/$'
from django.conf.urls import url
urlpatterns = [url(r"^polls/(\d+)/$", detail, name="detail")]
