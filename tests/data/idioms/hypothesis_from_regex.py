"""Hypothesis: texts that match a pattern."""
# pattern: '[a-z]+@[a-z]+\\.com'
from hypothesis import given, strategies as st
@given(st.from_regex(r"[a-z]+@[a-z]+\.com", fullmatch=True))
def test_address(text):
    assert "@" in text
