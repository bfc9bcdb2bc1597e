"""What a Python source says of its patterns: literals, flags, uses, and patterns that aren't literals."""
