"""Django, validators: RegexValidator in a model's field."""
# pattern: '^[0-9a-zA-Z]*$'
from django.core.validators import RegexValidator
from django.db import models
class Person(models.Model):
    code = models.CharField(max_length=50, validators=[RegexValidator(r"^[0-9a-zA-Z]*$", "Only letters and digits.")])
