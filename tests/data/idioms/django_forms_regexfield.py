"""Django, forms: RegexField takes the pattern as its argument `regex`."""
# pattern: '^\\+?1?\\d{9,15}$'
from django import forms
class PhoneForm(forms.Form):
    phone = forms.RegexField(regex=r"^\+?1?\d{9,15}$", strip=True)
