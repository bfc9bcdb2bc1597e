"""unittest: assertRaisesRegex as a context, and with a function."""
# pattern: "invalid literal for.*XYZ'$"
# pattern: '^bad [a-z]+$'
import unittest
class Errors(unittest.TestCase):
    def test_errors(self):
        self.assertRaisesRegex(ValueError, "invalid literal for.*XYZ'$", int, "XYZ")
        with self.assertRaisesRegex(expected_exception=KeyError, expected_regex="^bad [a-z]+$"):
            run()
