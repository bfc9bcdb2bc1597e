"""unittest before Python 3.12: the old names of these methods."""
# pattern: '^a+b$'
# pattern: 'no such \\w+'
import unittest
class Old(unittest.TestCase):
    def test_old(self):
        self.assertRegexpMatches(run(), "^a+b$")
        self.assertRaisesRegexp(OSError, r"no such \w+", run)
