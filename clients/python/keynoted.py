#!/usr/bin/env python3
"""Starts the command of the package `keynoted` that lies beside this file: keynoted.py --help."""

import sys

# a folder that is a package is found before a file of the same name
from keynoted.command import main

if __name__ == "__main__":
    sys.exit(main())
