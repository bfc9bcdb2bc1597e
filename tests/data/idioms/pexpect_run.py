"""pexpect: run with events, from patterns to answers."""
# pattern: '(?i)passphrase.*:'
import pexpect
out, status = pexpect.run("scp a b:", events={"(?i)passphrase.*:": "secret\n"}, withexitstatus=1)
