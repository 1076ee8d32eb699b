"""Runs of a program of which allocations are refused, by refuse.c, which stands between it and the C library."""

import collections
import os
import struct
import subprocess

SOURCE = os.path.join(os.path.dirname(os.path.abspath(__file__)), "refuse.c")
# the number of an allocation that no run comes to
NEVER = 1 << 40

# `read` are the bytes that it read of its input, and `made` the allocations that it asked for
Run = collections.namedtuple("Run", "status output errors read made")


def build_library(folder):
    """Builds refuse.c with a C compiler, cc or $CC."""
    library = os.path.join(folder, "refuse.so")
    subprocess.run([os.environ.get("CC", "cc"), "-O1", "-shared", "-fPIC", "-o", library, SOURCE], check=True)
    return library


def run_refused(library, words, path, first, last, limit):
    """A run over the input at this path, of which the allocations from the first to the last of these are refused."""
    ours, its = os.pipe()
    told = {"REFUSE_FIRST": str(first), "REFUSE_LAST": str(last), "REFUSE_TOLD": str(its)}
    with open(ours, "rb") as pipe, open(path, "rb") as given:
        try:
            env = {**os.environ, **told, "LD_PRELOAD": library}
            how = {"capture_output": True, "pass_fds": [its], "timeout": limit, "env": env, "check": False}
            ran = subprocess.run(words, stdin=given, **how)
        finally:
            os.close(its)
        read, made = os.lseek(given.fileno(), 0, os.SEEK_CUR), pipe.read()
    return Run(ran.returncode, ran.stdout, ran.stderr, read, struct.unpack("L", made)[0] if len(made) == 8 else 0)
