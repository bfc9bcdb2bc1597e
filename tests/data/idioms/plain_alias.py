"""Plain Python: functions of re under other names."""
# pattern: 'under another name'
import re as regular
rx = regular.compile
NAMED = rx("under " + "another name")
