"""Plain Python: a decorator of one's own that compiles what it gets."""
# pattern: '^/start( .*)?$'
import re
HANDLERS = []
def handles(pattern):
    compiled = re.compile(pattern)
    return lambda function: HANDLERS.append((compiled, function)) or function
@handles(r"^/start( .*)?$")
def start(match):
    return match
