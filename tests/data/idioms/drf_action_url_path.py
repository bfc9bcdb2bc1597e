"""Django REST framework, view sets: the path of an extra action may be a pattern."""
# pattern: 'delete/(?P<kind>[^/.]+)'
from rest_framework import viewsets
from rest_framework.decorators import action
class UserViewSet(viewsets.ViewSet):
    @action(detail=True, methods=["post"], url_path=r"delete/(?P<kind>[^/.]+)")
    def remove(self, request, pk=None, kind=None):
        return None
