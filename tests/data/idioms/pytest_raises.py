"""pytest: the argument match of raises."""
# pattern: 'must be \\d+$'
import pytest
def test_match():
    with pytest.raises(ValueError, match=r"must be \d+$"):
        raise ValueError("value must be 42")
