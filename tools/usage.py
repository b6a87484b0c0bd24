"""A tool's answer to --help."""
import sys


def answer(text):
    """Prints what a tool says of itself and ends with status 0, if it was asked with --help or -h."""
    if sys.argv[1:] in (["--help"], ["-h"]):
        print(text.strip())
        sys.exit(0)
