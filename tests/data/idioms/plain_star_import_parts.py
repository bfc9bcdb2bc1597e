"""A part of plain_star_import.py."""
STAR = r"^\*\s+"
