"""Searches simpler patterns that find the same, and writes them into sources."""
