"""The independent program for the tests of this folder, as tests/independent/build makes it."""

import functools
import pathlib
import subprocess
import sys

TESTS = pathlib.Path(__file__).resolve().parents[1]


@functools.cache
def built(directory=None):
    """The path of the independent program, built where it is stale; the test ends where that can't be, with 77 for want of rustc."""
    run = subprocess.run([TESTS / "independent" / "build", *([directory] if directory else [])], stdout=subprocess.PIPE, text=True)
    if run.returncode != 0:
        sys.exit(run.returncode)
    return pathlib.Path(run.stdout.strip())
