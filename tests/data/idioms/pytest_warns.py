"""pytest: the argument match of warns, with names imported."""
# pattern: 'is .*deprecated'
from pytest import warns
def test_warning():
    with warns(DeprecationWarning, match="is .*deprecated"):
        old()
