"""argparse: a type is a function, here with a pattern as a parameter's default."""
# pattern: '^[0-9a-f]{2}(:[0-9a-f]{2}){5}$'
import argparse
import re
def address(text, form=r"^[0-9a-f]{2}(:[0-9a-f]{2}){5}$"):
    if not re.match(form, text):
        raise argparse.ArgumentTypeError("no address")
    return text
parser = argparse.ArgumentParser()
parser.add_argument("--address", type=address)
