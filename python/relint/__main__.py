"""`python3 -P -m relint` is `rlt`."""
import sys

from .cli import main

if __name__ == "__main__":
    sys.exit(main())
