#!/usr/bin/env python3
"""Tests of the client against a built program: tests.py [PROGRAM [TEST..]]. They stand in the files tests_*.py."""

import glob
import importlib
import os
import sys
import unittest

sys.dont_write_bytecode = True
HERE = os.path.dirname(os.path.abspath(__file__))
sys.path.insert(0, HERE)


def main():
    if len(sys.argv) > 1:
        os.environ["KEYNOTED"] = os.path.abspath(sys.argv.pop(1))
    for name in sorted(glob.glob(os.path.join(HERE, "tests_*.py"))):
        module = importlib.import_module(os.path.basename(name)[:-3])
        globals().update({it: found for it, found in vars(module).items() if isinstance(found, type)})
    unittest.main(warnings="ignore")  # of what a test leaves open


if __name__ == "__main__":
    main()
