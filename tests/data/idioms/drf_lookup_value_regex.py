"""Django REST framework, routers: the pattern of the lookup in the routes of a view set."""
# pattern: '[0-9a-f]{32}'
from rest_framework import viewsets
class UserViewSet(viewsets.ModelViewSet):
    lookup_field = "username"
    lookup_value_regex = "[0-9a-f]{32}"
