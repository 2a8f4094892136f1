"""Prints the routes that a recording leaves: `routes.py FILE [LIBRARY]`. LIBRARY is libabr.so, if it is not beside the module."""
import sys

import abr

if __name__ == "__main__":
    print(*abr.load(*sys.argv[1:]).routes(), sep="\n")
