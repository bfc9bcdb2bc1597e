"""pytest, testing plugins: lines of an output by patterns."""
# pattern: '.*1 passed in \\d+.*'
# pattern: '=+'
import pytest
def test_plugin(pytester: pytest.Pytester):
    result = pytester.runpytest()
    result.stdout.re_match_lines([r".*1 passed in \d+.*", "=+"])
