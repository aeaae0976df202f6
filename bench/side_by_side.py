#!/usr/bin/env python3
"""Measures two or more programs on the same inputs: processor time and peak memory of a whole run.

    python3 bench/side_by_side.py [--runs N] [--wall] PROGRAM PROGRAM.. --inputs INPUT..

Each run of the first program is followed by one of each other, so that a busy machine disturbs all alike. Prints
for each input and program the least processor time of user and system, the middle one, the peak memory of the
quickest run, and both times as parts of the first program's. With --wall the time is that from its start to its
end, which several threads make shorter. A program may have options, in one word with it: "cityed --decimals".
"""

import argparse
import os
import statistics
import time


def run(program, path, wall):
    """Seconds, and the peak in MiB, of a program that reads the file as its standard input."""
    start = time.perf_counter()
    child = os.fork()
    if child == 0:
        os.dup2(os.open(path, os.O_RDONLY), 0)
        os.dup2(os.open(os.devnull, os.O_WRONLY), 1)
        words = program.split()
        os.execv(words[0], words)
    _, status, used = os.wait4(child, 0)
    if status != 0:
        raise SystemExit(f"side_by_side: {program} ended with {os.waitstatus_to_exitcode(status)} on {path}")
    seconds = time.perf_counter() - start if wall else used.ru_utime + used.ru_stime
    return seconds, used.ru_maxrss / 1024


def measure(programs, path, count, wall):
    runs = {program: [] for program in programs}
    for _ in range(count):
        for program in programs:
            runs[program].append(run(program, path, wall))
    return runs


def main():
    parser = argparse.ArgumentParser(description=__doc__, formatter_class=argparse.RawDescriptionHelpFormatter)
    parser.add_argument("--runs", type=int, default=6)
    parser.add_argument("--wall", action="store_true")
    parser.add_argument("programs", nargs="+")
    parser.add_argument("--inputs", nargs="+", required=True)
    given = parser.parse_args()
    for path in given.inputs:
        runs = measure(given.programs, path, given.runs, given.wall)
        first = runs[given.programs[0]]
        for program, its in runs.items():
            least, peak = min(its)
            middle = statistics.median(seconds for seconds, _ in its)
            parts = least / min(first)[0], middle / statistics.median(seconds for seconds, _ in first)
            print(f"{path} {program}: {least:.2f} s ({parts[0]:.2f}), middle {middle:.2f} s ({parts[1]:.2f}), {peak:.0f} MiB")


if __name__ == "__main__":
    main()
