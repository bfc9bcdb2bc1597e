"""Django, models and forms: FilePathField's `match` is a pattern for the files' names."""
# pattern: 'foo.*\\.txt$'
from django.db import models
class Report(models.Model):
    path = models.FilePathField(path="reports", match=r"foo.*\.txt$", recursive=True)
