"""Django REST framework, serializer fields: RegexField."""
# pattern: '^([a-z]{2}[0-9]{6})$'
from rest_framework import serializers
class PassportSerializer(serializers.Serializer):
    number = serializers.RegexField(r"^([a-z]{2}[0-9]{6})$", max_length=8)
