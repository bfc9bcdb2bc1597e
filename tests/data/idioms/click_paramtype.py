"""Click: a parameter type of one's own that matches a pattern."""
# pattern: '^(\\d+)x(\\d+)$'
import re
import click
class Size(click.ParamType):
    name = "size"
    form = re.compile(r"^(\d+)" + r"x(\d+)$")
    def convert(self, value, param, ctx):
        return self.form.match(value) or self.fail("no size")
