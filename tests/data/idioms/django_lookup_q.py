"""Django, queries: lookups within Q objects."""
# pattern: '^who[a-z]*'
# pattern: 'spam|eggs'
from django.db.models import Q
found = Poll.objects.filter(Q(question__regex=r"^who[a-z]*") | ~Q(question__iregex=r"spam|eggs"))
