"""unittest: assertRegex searches a pattern in a text."""
# pattern: '^wrote \\d+ lines?$'
import unittest
class Out(unittest.TestCase):
    def test_out(self):
        self.assertRegex(run(), r"^wrote \d+ lines?$")
