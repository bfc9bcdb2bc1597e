"""pytest: a constant handed to match, put together."""
# pattern: '^line \\d+: unexpected (end|token)$'
import pytest
PLACE = r"^line \d+: "
def test_place():
    with pytest.raises(SyntaxError, match=PLACE + "unexpected (end|token)$"):
        parse()
