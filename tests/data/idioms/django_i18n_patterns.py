"""Django, translation: routes with the language in front."""
# pattern: '^news/(?P<page>[0-9]+)/$'
from django.conf.urls.i18n import i18n_patterns
from django.urls import re_path
urlpatterns = i18n_patterns(re_path(r"^news/(?P<page>[0-9]+)/$", view, name="news"), prefix_default_language=False)
