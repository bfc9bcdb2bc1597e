"""A part of plain_import.py."""
NAME = r"[A-Za-z_]\w*"
