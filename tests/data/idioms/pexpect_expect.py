"""pexpect: expect waits until a pattern matches."""
# pattern: '(?i)name .*: '
import pexpect
child = pexpect.spawn("ftp ftp.openbsd.org")
child.expect("(?i)name .*: ")
child.sendline("anonymous")
