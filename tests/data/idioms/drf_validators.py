"""Django REST framework, validators: Django's validators in a serializer's field."""
# pattern: '^#[0-9a-f]{6}$'
from django.core.validators import RegexValidator
from rest_framework import serializers
COLOUR = RegexValidator(regex=r"^#[0-9a-f]{6}$")
class Paint(serializers.Serializer):
    colour = serializers.CharField(validators=[COLOUR])
