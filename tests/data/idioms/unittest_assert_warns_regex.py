"""unittest: assertWarnsRegex."""
# pattern: 'unsafe frobnicat\\w+'
import unittest
class Warned(unittest.TestCase):
    def test_warns(self):
        with self.assertWarnsRegex(RuntimeWarning, r"unsafe frobnicat\w+"):
            frobnicate("/etc/passwd")
