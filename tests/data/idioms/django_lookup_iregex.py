"""Django, queries: the lookup iregex, which ignores case."""
# pattern: '^(an?|the) +'
from django.db import models
entries = Entry.objects.filter(title__iregex=r"^(an?|the) +").order_by("title")
