#!/usr/bin/env python3
"""Refuses each growth that the library's calls make, in turn.

    python3 testing/refused_growths.py TESTS

TESTS is the built tests of city_tests. Needs a C compiler named cc, for refuse.c. Runs each test of the module
`refused` once for each growth that it makes, with that growth refused: the test passes, or there was no memory to
begin with. Prints one line for each test with how many growths were refused, and ends at the first other answer
with status 1.
"""

import itertools
import os
import subprocess
import sys
import tempfile

from refusals import Refused

SHORT_ANSWERS = (
    "error: AllocError",
    "error: OutOfMemory",
    "error: Error(out of memory)",
    'error: "no memory to begin with"',
)


class Wrong(Exception):
    """A test failed, though it wasn't for want of memory."""


def tests_in(path):
    listed = subprocess.run([os.path.abspath(path), "--list"], capture_output=True, text=True, check=True).stdout
    names = (line.removesuffix(": test") for line in listed.splitlines())
    return [name for name in names if name.startswith("refused::")]


def refuse_growths(program, test):
    """Refuses the Nth growth, for each N until a run of the test meets none."""
    counts = {"passed": 0, "short": 0}
    for number in itertools.count(1):
        refused, status, output, error = program.answer([test], b"", REFUSE_GROWTH=str(number))
        if not refused and status == 0:
            return f"{number - 1} growths: passed {counts['passed']}, no memory to begin with {counts['short']}"
        said = error.decode(errors="replace").splitlines()
        if status == 0:
            counts["passed"] += 1
        elif refused and said and said[0] in SHORT_ANSWERS:
            counts["short"] += 1
        else:
            raise Wrong(test, f"growth {number}", status, output, said)


def main():
    if len(sys.argv) != 2:
        print(__doc__)
        return 2
    with tempfile.TemporaryDirectory() as folder:
        program = Refused(sys.argv[1], folder)
        try:
            for test in tests_in(sys.argv[1]):
                print(f"{test}: {refuse_growths(program, test)}", flush=True)
        except Wrong as wrong:
            print("WRONG:", *(str(part)[:800] for part in wrong.args))
            return 1
    return 0


if __name__ == "__main__":
    sys.exit(main())
