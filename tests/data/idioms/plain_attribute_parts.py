"""A part of plain_module_attribute.py."""
HEX = "[0-9a-f]"
