"""django-cors-headers: origins by pattern, and the paths to which headers are added."""
# pattern: '^https://\\w+\\.example\\.com$'
# pattern: '^/api/.*$'
CORS_ALLOWED_ORIGIN_REGEXES = [r"^https://\w+\.example\.com$"]
CORS_URLS_REGEX = r"^/api/.*$"
