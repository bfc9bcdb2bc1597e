"""Django, queries: a lookup in a dictionary that is handed on by **."""
# pattern: '^[a-m]'
from django.db.models import Q
rows = Entry.objects.filter(**{"headline__regex": r"^[a-m]"})
