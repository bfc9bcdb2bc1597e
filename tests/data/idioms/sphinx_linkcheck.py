"""Sphinx, configuration: links that aren't checked."""
# pattern: 'https://localhost:\\d+/'
# pattern: '.*_static/.*'
project = "Example"
extensions = ["sphinx.ext.autodoc"]
linkcheck_ignore = [r"https://localhost:\d+/", ".*_static/.*"]
