#!/usr/bin/env python3
"""Tries live editing by lines of JSON: kills, refused calls, cut journals, garbage, crowds, random runs, growth.

    python3 testing/live.py PROGRAM [--quick] [--kinds KIND ..] [--kills N] [--runs N] [--stride N] [--seed N]

PROGRAM is a built cityed. Nothing that was told as committed may be lost, be there in half or twice: after a kill at a
random moment under eight hands, a kill before each step on a file, each step refused, a full disk, a journal cut at
each byte of its last two lines. Each line that is no request is answered by one error. What random hands are told is
what a second engine tells (live_engine.py), what has ended is run again by the program, and so are the scripts of the
journals. Needs a C compiler named cc; a small disk is mounted if it may be. --quick takes fewer kills and runs, and
some of the steps and bytes: under three minutes. Prints a line for each kind, and ends at the first wrong answer with
status 1.
"""

import argparse
import os
import subprocess
import sys
import tempfile
import time

from live_crowds import crowd, never_reads
from live_growth import growth, replay
from live_journals import changes, cuts, keys, locks, others, saves
from live_kills import chain, kills
from live_process import Wrong
from live_random import random_runs
from live_refused import full, limits, order, steps
from live_texts import garbage, long_lines, pieces

KINDS = (kills, chain, steps, order, limits, full, cuts, changes, others, saves, keys, locks)
KINDS += (garbage, pieces, long_lines, crowd, never_reads, random_runs, growth, replay)
FULL = {"kills": 500, "runs": 500, "stride": 1}
QUICK = {"kills": 40, "runs": 60, "stride": 11}


def tell(kind, program, given):
    """Tries a kind, tells what came of it, and returns whether it is as it should be."""
    start = time.monotonic()
    with tempfile.TemporaryDirectory(prefix="live-") as folder:
        try:
            print(f"{kind.__name__}: {kind(program, folder, given)}, as it should be", end="", flush=True)
        except (Wrong, subprocess.TimeoutExpired) as wrong:
            print("WRONG:", kind.__name__, *(str(part)[:1500] for part in wrong.args), sep="\n  ", flush=True)
            return False
    print(f" ({time.monotonic() - start:.0f} s)", flush=True)
    return True


def main():
    asked = argparse.ArgumentParser(description=__doc__, formatter_class=argparse.RawDescriptionHelpFormatter)
    asked.add_argument("program", metavar="PROGRAM")
    asked.add_argument("--quick", action="store_true")
    asked.add_argument("--kinds", nargs="+", choices=[kind.__name__ for kind in KINDS], metavar="KIND")
    for name in FULL:
        asked.add_argument(f"--{name}", type=int, metavar="N")
    asked.add_argument("--seed", type=int, default=1, metavar="N")
    asked.add_argument("--go-on", action="store_true", help="try the other kinds after a wrong answer too")
    given = asked.parse_args()
    for name, number in (QUICK if given.quick else FULL).items():
        if getattr(given, name) is None:
            setattr(given, name, number)
    program, well = os.path.abspath(given.program), True
    for kind in KINDS:
        if given.kinds is None or kind.__name__ in given.kinds:
            well = tell(kind, program, given) and well
            if not well and not given.go_on:
                return 1
    return 0 if well else 1


if __name__ == "__main__":
    sys.exit(main())
