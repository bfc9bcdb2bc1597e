"""Django, queries: the lookup's pattern is a constant of the module."""
# pattern: '^[0-9]+\\.jpe?g$'
from django.db.models import Count
PHOTOS = r"^[0-9]+\.jpe?g$"
def photos(queryset):
    return queryset.filter(file__name__iregex=PHOTOS).aggregate(Count("pk"))
