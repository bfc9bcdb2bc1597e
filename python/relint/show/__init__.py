"""Layouts: findings as text for terminals, build servers and browsers."""
