#!/usr/bin/env python3
"""Measures a run over a city in tiles (docs/COOKBOOK.md) beside bare runs of the program on the same tiles.

usage: tiles.py PROGRAM [--tiles N] [--scripts N] [--big N]

Makes the tiles, and prints a line for each way: wall seconds, processor seconds of all that ran, and both by tile that
has scripts. Each way is run once for each folder; the machine should have nothing else to do.
"""
import argparse
import os
import resource
import shutil
import subprocess
import sys
import tempfile
import time
from pathlib import Path

CITY = Path(__file__).resolve().parent.parent / "examples/city"
SNAKE = f"snakemake --quiet --snakefile {CITY}/Snakefile --profile {CITY}/profile --cores"
STEP = f"python3 {CITY}/city.py"
WAYS = {
    "the program alone, tile by tile": "for it in scripts/*/*.json; do tile=${it##*/}; tile=${tile%.*.json}; "
    '"$CITYED" --decimals --output /dev/shm/tile base/$tile.city.json $it > /dev/null; done; true',
    "the steps by hand, one after the other": f"for it in $(ls scripts); do {STEP} batch $it; done; {STEP} report",
    "Snakemake, 1 core": f"{SNAKE} 1",
    "Snakemake, 2 cores": f"{SNAKE} 2",
    "Snakemake, 4 cores": f"{SNAKE} 4",
}


def measured(command, folder, names):
    before, begun = resource.getrusage(resource.RUSAGE_CHILDREN), time.time()
    subprocess.run(["sh", "-c", command], cwd=folder, env=names, check=True, capture_output=True)
    after, wall = resource.getrusage(resource.RUSAGE_CHILDREN), time.time() - begun
    return wall, after.ru_utime + after.ru_stime - before.ru_utime - before.ru_stime


def main():
    words = argparse.ArgumentParser(description=__doc__, formatter_class=argparse.RawDescriptionHelpFormatter)
    words.add_argument("program", type=Path)
    for name, value in (("tiles", 240), ("scripts", 2000), ("big", 24)):
        words.add_argument(f"--{name}", type=int, default=value)
    given = words.parse_args()
    names = {**os.environ, "CITYED": str(given.program.resolve())}
    with tempfile.TemporaryDirectory(prefix="tiles-") as room:
        made = Path(room) / "made"
        sizes = [f"--tiles={given.tiles}", f"--scripts={given.scripts}", f"--big={given.big}"]
        told = subprocess.run([sys.executable, CITY / "make_tiles.py", made, *sizes], check=True, capture_output=True)
        print(told.stdout.decode().strip())
        (made / "tiles").rename(made / "base")
        for way, command in WAYS.items():
            folder = Path(room) / "run"
            shutil.copytree(made, folder)
            wall, spent = measured(f"{STEP} route", folder, names)
            if "Snakemake" not in way:
                print(f"(the step route: {wall:.1f} s, {spent:.1f} s of processor time)")
                wall, spent = measured(command, folder, names)
            else:
                shutil.rmtree(folder / "scripts")
                (folder / "refused.txt").unlink()
                wall, spent = measured(command, folder, names)
            tiles = len(list(folder.glob("scripts/*/*.json")))
            share = f"{1000 * wall / tiles:.0f} and {1000 * spent / tiles:.0f} ms a tile"
            print(f"{way}: {wall:.1f} s, {spent:.1f} s of processor time; {tiles} tiles, {share}")
            shutil.rmtree(folder)


if __name__ == "__main__":
    main()
