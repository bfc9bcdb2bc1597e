"""A hostile repository, and the runs of every tool over it. `tests/runner/hostile.py` is the part of `./test` that uses it."""
