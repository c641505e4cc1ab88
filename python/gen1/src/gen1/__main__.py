"""Runs the program gen1 that a wheel contains: `python -m gen1`."""

import os
import sys

from gen1._library import installed

if __name__ == "__main__":
    program = installed("bin/gen1")
    if program is None:
        sys.exit(
            "python -m gen1: the program gen1 is not installed with this package, which was built without cargo; "
            "docs/START.md of the repository says how to build it"
        )
    os.execv(program, [str(program), *sys.argv[1:]])
