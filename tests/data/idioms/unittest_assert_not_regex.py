"""unittest: assertNotRegex, and the pattern is a constant of the class."""
# pattern: 'Trace(back)?'
import unittest
class Out(unittest.TestCase):
    ERRORS = r"Trace(back)?"
    def test_out(self):
        self.assertNotRegex(run(), self.ERRORS)
