"""Plain Python: a name that is bound in both branches of an if."""
# pattern: '^[A-Z]:\\\\'
# pattern: '^/[a-z]+'
import os
import re
if os.name == "nt":
    ROOT = r"^[A-Z]:\\"
else:
    ROOT = r"^/[a-z]+"
IS_ROOT = re.compile(ROOT)
