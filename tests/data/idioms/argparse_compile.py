"""argparse: re.compile as the type; a default that is a text goes through it too."""
# pattern: '.*\\.py$'
import argparse
import re
parser = argparse.ArgumentParser()
parser.add_argument("--include", type=re.compile, default=r".*\.py$")
