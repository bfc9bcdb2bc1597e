"""warnings: filterwarnings by position and for modules."""
# pattern: 'unclosed (file|socket)'
# pattern: 'mypackage\\..*'
from warnings import filterwarnings
filterwarnings("error", r"unclosed (file|socket)", ResourceWarning, r"mypackage\..*")
