"""What everything else stands on: types, words, and safe access to files."""
