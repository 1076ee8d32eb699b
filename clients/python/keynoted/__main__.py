"""Runs the command: python3 -m keynoted."""

import sys

from .command import main

if __name__ == "__main__":
    sys.exit(main())
