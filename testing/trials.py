#!/usr/bin/env python3
"""Runs the trials that need no proof, one after another, with programs that are built unproved for them.

    python3 testing/trials.py [TRIAL ..] [--cityed FILE] [--scenarios FILE]
    python3 testing/trials.py --list

Without names all trials run: the scripts beside this one, but refused_growths.py, which needs the proved tests, and
live_costs.py, whose limits aren't all met yet; and the two runs by which the gate tries the programs: street
(crates/cityed/stdin) and scenarios (crates/city_scenarios/data). A program that is needed and not given is built by
unproved.py, into a folder that is removed at the end. --list prints the command of each trial. Prints a line for each,
and what a trial said that failed. The last line counts, and the status is 1 if one failed.
"""

import argparse
import os
import shutil
import signal
import subprocess
import sys
import tempfile
import time
from itertools import zip_longest
from pathlib import Path

from listed_crates import ROOT

CITYED, SCENARIOS = "CITYED", "SCENARIOS"
CRATES = {CITYED: "cityed", SCENARIOS: "city_scenarios"}
# The words of each trial's command; of the first two, the program that runs on what the gate runs it on.
TRIALS = {
    "street": [CITYED],
    "scenarios": [SCENARIOS],
    "edits": ["edits.py", "--apply"],
    "definitions": ["definitions.py"],
    "known_diagnostics": ["known_diagnostics.py"],
    "statuses": ["statuses.py", CITYED],
    "mistakes": ["mistakes.py", CITYED],
    "pages": ["pages.py", CITYED],
    "packaging": ["packaging.py", CITYED],
    "two_runs": ["two_runs.py", CITYED],
    "output_files": ["output_files.py", CITYED],
    "live_runs": ["live_runs.py", CITYED, SCENARIOS],
    "live": ["live.py", CITYED, "--quick"],
    "live_client": ["live_client.py", CITYED],
    "live_gateway": ["live_gateway.py", CITYED],
    "live_page": ["live_page.py", CITYED],
    "live_proxy": ["live_proxy.py", CITYED],
    "mended_models": ["mended_models.py", CITYED],
    "counted_calls": ["counted_calls.py", CITYED, SCENARIOS],
    "refused_calls": ["refused_calls.py", CITYED],
    "decimals": ["decimals.py", CITYED],
    "texts_in_pieces": ["texts_in_pieces.py", SCENARIOS],
    "hostile_texts": ["hostile_texts.py", CITYED],
    "checked_texts": ["checked_texts.py", CITYED],
    "city": ["city.py", CITYED],
}
# The other scripts: one that needs the proved tests, one whose limits aren't all met yet, and those that try no program.
OTHERS = {"refused_growths", "live_costs", "edits", "trials", "unproved"}
MOST_LINES = 30


def left_out():
    """The scripts beside this one that are in neither list."""
    texts = {path.stem: path.read_text(encoding="utf-8") for path in (ROOT / "testing").glob("*.py")}
    return sorted(name for name, text in texts.items() if text.startswith("#!") and name not in OTHERS | TRIALS.keys())


def is_script(words):
    return words[0].endswith(".py")


def command(words):
    """A trial's command, as it is shown."""
    if is_script(words):
        return " ".join(["python3", f"testing/{words[0]}", *words[1:]])
    return f"{words[0]}, as the gate runs crates/{CRATES[words[0]]}"


def run_script(words, programs):
    """Runs a script, and returns whether it ended well, and what it said."""
    given = [str(programs.get(word, word)) for word in words[1:]]
    called = [sys.executable, str(ROOT / "testing" / words[0]), *given]
    ran = subprocess.run(called, cwd=ROOT, stdin=subprocess.DEVNULL, stdout=subprocess.PIPE, stderr=subprocess.STDOUT)
    return ran.returncode == 0, ran.stdout.decode(errors="replace")


def run_as_the_gate(program, crate):
    """Runs a program on the files of its crate, and returns whether it wrote what is in stdout, and what differs."""
    folder = ROOT / "crates" / crate
    words, given, wanted = (read(folder / name) for name in ("args", "stdin", "stdout"))
    with tempfile.TemporaryDirectory(prefix="trials-") as room:
        if (folder / "data").is_dir():
            shutil.copytree(folder / "data", room, dirs_exist_ok=True)
        ran = subprocess.run([program, *words.decode().splitlines()], input=given, capture_output=True, cwd=room)
    if (ran.returncode, ran.stdout) == (0, wanted):
        return True, ""
    pairs = zip_longest(ran.stdout.decode(errors="replace").split("\n"), wanted.decode().split("\n"), fillvalue="")
    wrote, right = next((pair for pair in pairs if pair[0] != pair[1]), ("", ""))
    told = [f"status {ran.returncode}", f"wrote  {wrote[:300]}", f"wanted {right[:300]}"]
    return False, "\n".join([*told, ran.stderr.decode(errors="replace")])


def read(path):
    """What a file has, if there is one."""
    return path.read_bytes() if path.is_file() else b""


def built(name, room):
    """A program that is built for the trials, or none."""
    print(f"building {CRATES[name]}, unproved", flush=True)
    words = [sys.executable, str(ROOT / "testing" / "unproved.py"), CRATES[name], str(room)]
    if subprocess.run(words, stdin=subprocess.DEVNULL).returncode:
        return None
    return room / f"{CRATES[name]}-unproved"


def passes(words, programs):
    """Whether a trial passes, and what it said."""
    lacking = [CRATES[word] for word in words if word in CRATES and programs[word] is None]
    if lacking:
        return False, f"there is no {lacking[0]}"
    if is_script(words):
        return run_script(words, programs)
    return run_as_the_gate(programs[words[0]], CRATES[words[0]])


def tell(name, words, programs):
    """Runs a trial, tells what came of it, and returns whether it passed."""
    start = time.monotonic()
    well, said = passes(words, programs)
    print(f"{name}: {'passed' if well else 'FAILED'}, {time.monotonic() - start:.0f} s", flush=True)
    if not well:
        print(*said.splitlines()[-MOST_LINES:], sep="\n", flush=True)
    return well


def main():
    asked = argparse.ArgumentParser(description=__doc__, formatter_class=argparse.RawDescriptionHelpFormatter)
    asked.add_argument("trials", nargs="*", metavar="TRIAL")
    asked.add_argument("--cityed", metavar="FILE")
    asked.add_argument("--scenarios", metavar="FILE")
    asked.add_argument("--list", action="store_true")
    asked = asked.parse_args()
    if left_out():
        print(f"trials: {left_out()[0]}.py is in no list of trials.py")
        return 2
    unknown = [name for name in asked.trials if name not in TRIALS]
    if unknown:
        print(f"trials: there is no trial {unknown[0]}; --list prints all")
        return 2
    lacking = [it for it in (asked.cityed, asked.scenarios) if it and not os.access(it, os.X_OK)]
    if lacking:
        print(f"trials: there is no program {lacking[0]}")
        return 2
    chosen = {name: words for name, words in TRIALS.items() if name in asked.trials or not asked.trials}
    if asked.list:
        print(*[f"{name}: {command(words)}" for name, words in chosen.items()], sep="\n")
        return 0
    signal.signal(signal.SIGTERM, lambda *_: sys.exit("trials: ended"))
    with tempfile.TemporaryDirectory(prefix="trials-") as folder:
        programs = {CITYED: asked.cityed, SCENARIOS: asked.scenarios}
        for name, given in programs.items():
            if given:
                programs[name] = Path(given).absolute()
            elif any(name in words for words in chosen.values()):
                programs[name] = built(name, Path(folder))
        well = [tell(name, words, programs) for name, words in chosen.items()]
    print(f"{sum(well)} passed, {len(well) - sum(well)} failed")
    return 0 if all(well) else 1


if __name__ == "__main__":
    sys.exit(main())
