"""pexpect: a list of patterns, also with the classes EOF and TIMEOUT."""
# pattern: 'password[: ]+'
# pattern: '[#\\$] '
import pexpect
child = pexpect.spawn("ssh host")
index = child.expect(["password[: ]+", r"[#\$] ", pexpect.EOF, pexpect.TIMEOUT], timeout=30)
