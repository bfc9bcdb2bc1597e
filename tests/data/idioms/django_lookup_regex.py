"""Django, queries: the lookup regex; SQLite runs it by Python's re."""
# pattern: '^(An?|The) +'
from blog.models import Entry
entries = Entry.objects.get(title__regex=r"^(An?|The) +")
