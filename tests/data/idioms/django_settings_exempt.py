"""Django, settings: paths that aren't redirected to HTTPS are a list of patterns."""
# pattern: '^no-ssl/[a-z]+$'
SECURE_SSL_REDIRECT = True
SECURE_REDIRECT_EXEMPT = [r"^no-ssl/[a-z]+$"]
