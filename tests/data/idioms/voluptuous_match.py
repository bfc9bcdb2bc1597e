"""voluptuous: Match, and Replace."""
# pattern: '^0x[A-F0-9]+$'
# pattern: '^\\s+'
from voluptuous import All, Match, Replace, Schema
validate = Schema({"key": Match(r"^0x[A-F0-9]+$"), "name": All(Replace(r"^\s+", ""), str)})
