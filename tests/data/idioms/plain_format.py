"""Plain Python: format with names."""
# pattern: '^[a-z]+@[a-z]+\\.org$'
import re
ADDRESS = re.compile("^{user}@{host}$".format(user="[a-z]+", host=r"[a-z]+\.org"))
