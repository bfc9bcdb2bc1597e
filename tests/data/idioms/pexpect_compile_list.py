"""pexpect: patterns that are compiled once for many waits."""
# pattern: 'ready\\d*>'
import pexpect
child = pexpect.spawn("console")
patterns = child.compile_pattern_list([r"ready\d*>", pexpect.EOF])
child.expect_list(patterns)
