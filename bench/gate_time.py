#!/usr/bin/env python3
"""Runs the gate, and tells where its processor time goes: by kind, and by crate.

    python3 bench/gate_time.py [--json FILE] [WORD ..]

The words go to rt ci. Its processes are looked at each second, and each belongs to the kind that its words and its
folder tell. A crate with edits is proved a second time, and its edits are tried over that proof. What a process took
after the last look at it is told as "not seen": the whole is known once rt has ended. With --json a file gets the
seconds of each kind and crate. The status is that of rt ci.
"""

import argparse
import json
import os
import re
import shutil
import signal
import subprocess
import sys
import time
from collections import Counter

SECONDS = 1
TICKS = os.sysconf("SC_CLK_TCK")
FIRST = ("first proofs", "tests", "programs", "rt itself")
SECOND = ("second proofs", "edits")


def text_of(path):
    """A file of /proc, or nothing if its process has ended."""
    try:
        with open(path, "rb") as file:
            return file.read().decode(errors="replace")
    except OSError:
        return ""


def looked_at():
    """Each process: its parent, when it began, and the processor seconds that it has taken."""
    found = {}
    for pid in filter(str.isdigit, os.listdir("/proc")):
        fields = text_of(f"/proc/{pid}/stat").rpartition(")")[2].split()
        if fields:
            found[int(pid)] = int(fields[1]), fields[19], (int(fields[11]) + int(fields[12])) / TICKS
    return found


def below(found, root):
    """The processes that a process has started, itself among them."""
    inside = {root}
    for pid in found:
        line = []
        while pid in found and pid not in inside:
            line.append(pid)
            pid = found[pid][0]
        if pid in inside:
            inside.update(line)
    return [pid for pid in inside if pid in found]


def kind_of(pid):
    """The kind that a process belongs to, and its crate, if its words and its folder tell."""
    words = text_of(f"/proc/{pid}/cmdline").split("\0")
    try:
        folder = os.readlink(f"/proc/{pid}/cwd")
    except OSError:
        folder = ""
    crate = next((name for word, name in zip(words, words[1:]) if word == "--crate-name"), "")
    if "rt-edit-" in folder or any("rt-edits-" in word for word in words):
        return "second proofs" if any(word.endswith("/seed") for word in words) else "edits", crate
    if "--test" in words or any(re.search(r"rt-run-.*_tests$", word) for word in words):
        return "tests", crate
    if any("rt-run-" in word for word in [folder, *words]):
        return "programs", crate
    return ("first proofs", crate) if crate else None


def kinds_of(found, root):
    """The kind and the crate of each process below one: its own, or else those of what started it."""
    kinds = {root: ("rt itself", "")}

    def kind(pid):
        if pid not in kinds:
            kinds[pid] = kind_of(pid) or kind(found[pid][0])
        return kinds[pid]

    return {pid: kind(pid) for pid in below(found, root)}


def sampled(ran):
    """The seconds of each kind and crate while a command runs, its status, and all that it took."""
    taken, kinds = {}, {}
    while True:
        found = looked_at()
        for pid, kind in kinds_of(found, ran.pid).items():
            key = pid, found[pid][1]
            taken[key] = found[pid][2]
            if kind[1] or key not in kinds:
                kinds[key] = kind
        ended, status, used = os.wait4(ran.pid, os.WNOHANG)
        if ended:
            break
        time.sleep(SECONDS)
    seconds = Counter()
    for key, much in taken.items():
        seconds[kinds[key]] += much
    return seconds, os.waitstatus_to_exitcode(status), used.ru_utime + used.ru_stime


def table(seconds, kinds):
    """Lines with the minutes of each crate by kind, those first that take most."""
    crates = sorted({crate for _, crate in seconds if crate}, key=lambda it: -sum(seconds[kind, it] for kind in kinds))
    yield f"{'':20}" + "".join(f"{kind:>15}" for kind in kinds)
    for crate in crates:
        yield f"{crate:20}" + "".join(f"{seconds[kind, crate] / 60:15.1f}" for kind in kinds)


def tell(seconds, whole, clock):
    """Prints minutes by crate and by kind, and what second proofs and edits are of the others."""
    print(*table(seconds, ("first proofs", "tests", *SECOND)), sep="\n")
    by_kind = Counter()
    for (kind, _), much in seconds.items():
        by_kind[kind] += much
    told = [f"{kind} {by_kind[kind] / 60:.1f}" for kind in (*FIRST, *SECOND)]
    missed = max(0, whole - sum(by_kind.values())) / 60
    print(f"processor minutes: {', '.join(told)}, not seen {missed:.1f}")
    first, second = (sum(by_kind[kind] for kind in kinds) for kinds in (FIRST, SECOND))
    part = f"{second / first:.2f}" if first else "no part"
    print(f"second proofs and edits are {part} of the others; {clock / 60:.1f} minutes by the clock")


def main():
    asked = argparse.ArgumentParser(description=__doc__, formatter_class=argparse.RawDescriptionHelpFormatter)
    asked.add_argument("--json", metavar="FILE")
    asked, words = asked.parse_known_args()
    if shutil.which("rt") is None:
        print("gate_time: there is no command rt: the Rattle toolchain has to be installed, its bin/ in PATH")
        return 2
    signal.signal(signal.SIGTERM, lambda *_: sys.exit("gate_time: ended"))
    start, ran = time.monotonic(), subprocess.Popen(["rt", "ci", *words])
    try:
        seconds, status, whole = sampled(ran)
    except BaseException:
        ran.kill()
        raise
    tell(seconds, whole, time.monotonic() - start)
    if asked.json:
        with open(asked.json, "w", encoding="utf-8") as file:
            json.dump([[*key, round(much, 1)] for key, much in seconds.most_common()], file, indent=1)
    return status


if __name__ == "__main__":
    sys.exit(main())
