"""Django, admin: get_urls of a ModelAdmin puts more views in front."""
# pattern: '^my_view/(?P<slug>[-\\w]+)/$'
from django.contrib import admin
from django.urls import re_path
class MyModelAdmin(admin.ModelAdmin):
    def get_urls(self):
        urls = super().get_urls()
        return [re_path(r"^my_view/(?P<slug>[-\w]+)/$", self.admin_site.admin_view(self.my_view))] + urls
