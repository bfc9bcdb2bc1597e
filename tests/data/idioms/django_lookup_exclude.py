"""Django, queries: exclude, over a related model."""
# pattern: '^test[0-9]*$'
from django.contrib.auth.models import User
users = User.objects.exclude(profile__nickname__regex=r"^test[0-9]*$")
