"""schema: Regex in a dictionary."""
# pattern: '^foo\\d*'
from schema import Optional, Regex, Schema
form = Schema({Optional("name"): Regex(r"^foo\d*")})
