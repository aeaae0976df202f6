#!/usr/bin/env python3
"""Edits a city in tiles by examples/city, disturbs the run, and compares each tile and each line of the report.

usage: city.py PROGRAM [--tiles N] [--scripts N] [--only KIND]

PROGRAM is a built cityed. What is wanted of each tile is found by the second reading (second_reading.py), which shares
no code with the program. Each kind is a run of its own, by Snakemake where it is installed and by a loop of the shell:

  whole    nothing happens
  job      some of the program's processes are killed as they begin
  engine   the engine and all its children are killed when some tiles are done, and it is begun again
  full     the file system of the run has no room left (where one may be mounted), and then more
  twice    a second engine is started for the same folder (Snakemake alone, which locks it)
"""
import argparse
import json
import os
import shutil
import signal
import subprocess
import sys
import tempfile
import time
from collections import Counter
from concurrent.futures import ProcessPoolExecutor
from pathlib import Path

from number_texts import Members, Number, encoded_top, is_single, text_of, value_of
from second_reading import run as second_reading

ROOT = Path(__file__).resolve().parent.parent
CITY = ROOT / "examples/city"
SNAKE = f"snakemake --quiet --snakefile {CITY}/Snakefile --profile {CITY}/profile --cores 2"
STEP = f"python3 {CITY}/city.py"
ENGINES = {
    "snakemake": f"{SNAKE} --unlock; {SNAKE}",
    "shell": f"{STEP} route && for it in $(ls scripts); do {STEP} batch $it || exit; done && {STEP} report",
}
IDS = ("read", "put", "add", "set", "unset", "reshape", "expect", "delete", "attach", "detach", "parent")
# Stands for the program: it notes the tile, and is killed as it begins where its turn comes.
SLOW = """#!/bin/sh
for it; do case $it in base/*) echo "$it" >> "$NOTES"; sleep 0.05
  [ "$(wc -l < "$NOTES")" -lt 20 ] && [ $(($(wc -l < "$NOTES") % ${KILLED:-999})) = 0 ] && kill -KILL $$;; esac; done
exec "$PROGRAM" "$@"
"""


class City:
    """Tiles, scripts for them, and what is wanted of each tile and each script."""

    def __init__(self, room, tiles, scripts):
        self.room = room / "made"
        words = [CITY / "make_tiles.py", room / "made", "--tiles", str(tiles), "--scripts", str(scripts)]
        subprocess.run([sys.executable, *words], check=True, stdout=subprocess.DEVNULL)
        self.models = {path.name.removesuffix(".city.json"): path for path in sorted((self.room / "tiles").iterdir())}
        self.open_a_shell(sorted(self.models)[1])
        self.edit_attributes()
        self.routed, self.refused = self.route()
        with ProcessPoolExecutor() as pool:
            self.wanted = dict(zip(self.routed, pool.map(edited, map(self.models.get, self.routed), self.routed.values())))

    def open_a_shell(self, tile):
        """One tile gets a solid that lacks a face."""
        model = json.loads(self.models[tile].read_text(), parse_float=str, parse_int=int)
        text = self.models[tile].read_text()
        part = next(it for it in model["CityObjects"].values() if it.get("geometry", [{}])[0].get("type") == "Solid")
        shell = part["geometry"][0]["boundaries"][0]
        whole, short = (json.dumps(it, separators=(",", ":")) for it in (shell, shell[:-1]))
        assert text.count(whole) >= 1
        self.models[tile].write_text(text.replace(whole, short, 1))

    def edit_attributes(self):
        """Of each tile one house is expected, set, unset, and gets a shed; every third script expects what isn't so."""
        scripts = []
        for number, path in enumerate(self.models.values()):
            model = json.loads(path.read_text(), parse_float=str)
            house = next(name for name, it in model["CityObjects"].items() if it["type"] == "Building")
            year = model["CityObjects"][house]["attributes"]["oorspronkelijkbouwjaar"] + (number % 3 == 2)
            commands = [
                {"expect": house, "attributes": {"oorspronkelijkbouwjaar": year, "b3_pw_bron": "ahn4"}},
                {"set": house, "attributes": {"status": "Pand ten onrechte opgevoerd", "hoogte": "\0"}},
                {"unset": house, "attributes": ["identificatie", "b3_dak_type"]},
                {"reshape": house, "geometry": []},
                {"add": f"{house}-shed", "object": {"type": "BuildingPart"}},
                {"attach": f"{house}-shed", "parent": house},
                "commit",
            ]
            scripts.append({"name": f"attributes {number}", "commands": commands})
        text = json.dumps(scripts).replace('"\\u0000"', "9.50")
        (self.room / "edits" / "attributes.json").write_text(text)

    def route(self):
        """The scripts of each tile as values, and for those of several tiles or none the name and the tiles."""
        homes, routed, refused = {}, {}, []
        for tile, path in self.models.items():
            for name in json.loads(path.read_text())["CityObjects"]:
                homes.setdefault(name, set()).add(tile)
        for path in sorted((self.room / "edits").iterdir()):
            for script in value_of(path.read_bytes()):
                commands = [dict(it.pairs) for it in script.get("commands") if isinstance(it, Members)]
                names = {it[name] for it in commands for name in IDS if name in it}
                tiles = set().union({path.stem} & self.models.keys(), *(homes.get(name, set()) for name in names))
                if len(tiles) == 1:
                    tile = next(iter(tiles))
                    routed.setdefault(tile, []).append(script)
                    new = {it[verb] for it in commands for verb in ("put", "add") if verb in it}
                    homes.update({name: {tile} for name in new - homes.keys()})
                else:
                    refused.append((script.get("name"), sorted(tiles)))
        return routed, refused

    def hold(self, run):
        """Holds that the run's folder has all of what is wanted, and nothing else."""
        assert sorted(os.listdir(run / "tiles")) == sorted(path.name for path in self.models.values())
        lines = [json.loads(line, parse_float=str) for line in (run / "report.txt").read_text().splitlines()]
        texts = (run / "report.txt").read_text().splitlines()
        for tile, path in self.models.items():
            ends, model = self.wanted.get(tile, ([], path.read_text()))
            assert (run / "tiles" / path.name).read_text() == model, f"{run}: the model of {tile}"
            mine = [text for line, text in zip(lines, texts) if line.get("tile") == tile]
            if ends is None:
                assert len(mine) == len(self.routed[tile]) and all("OpenShell" in it for it in mine), f"{run}: {tile}"
            else:
                assert mine == [f'{end[:-1]},"tile":"{tile}"}}' for end in ends], f"{run}: the report of {tile}"
        others = [(line["name"], line["tiles"]) for line in lines if "tile" not in line]
        assert sorted(others) == sorted(self.refused), f"{run}: {others}"
        return len(lines)


def edited(model, scripts):
    """The lines and the model that a tile should get, or no lines and the model as it was."""
    old = model.read_bytes()
    output, fault = second_reading(*(text_of(encoded_top(value)).encode() for value in (value_of(old), scripts)))
    if fault:
        return None, old.decode()
    *lines, new = [text_of(decoded_top(value_of(line))) for line in output.splitlines()]
    return lines, new + "\n"


def decoded(value):
    """The value whose encoded form this is."""
    if isinstance(value, list):
        return [decoded(item) for item in value]
    if not isinstance(value, Members):
        return value
    if [name for name, _ in value.pairs] == ["#"] and isinstance(value.get("#"), str):
        return Number(value.get("#"))
    in_shield = lambda name, item: name == "#" and isinstance(item, list) or name == "attributes" and is_single(item)
    bare = lambda name, item: item[0] if in_shield(name, item) else item
    return Members(tuple((name, decoded(bare(name, item))) for name, item in value.pairs))


def decoded_top(value):
    pairs = value.pairs if isinstance(value, Members) else ()
    framed = {name: item.get("#") for name, item in pairs if name == "transform" and isinstance(item, Members)}
    return decoded(value.replacing(framed)) if framed else decoded(value)


class Run:
    """A folder in which an engine runs."""

    def __init__(self, city, engine, folder, program, killed=None):
        self.folder, self.engine = folder, engine
        (folder / "edits").mkdir(parents=True)
        for path in (city.room / "edits").iterdir():
            shutil.copy(path, folder / "edits")
        shutil.copytree(city.room / "tiles", folder / "base")
        self.notes = city.room / f"notes-{folder.name}"
        self.notes.touch()
        slow = city.room / "slow"
        slow.write_text(SLOW)
        slow.chmod(0o755)
        self.names = {**os.environ, "CITYED": str(slow), "PROGRAM": str(program), "NOTES": str(self.notes)}
        if killed:
            self.names["KILLED"] = str(killed)

    def begin(self):
        return subprocess.Popen(["sh", "-c", ENGINES[self.engine]], cwd=self.folder, env=self.names,
                                start_new_session=True, stdout=subprocess.DEVNULL, stderr=subprocess.DEVNULL)

    def ended(self):
        return self.begin().wait() == 0

    def done(self):
        return [path.name.split(".")[0] for path in self.folder.glob("reports/*.txt")]


def whole(city, run):
    assert run.ended(), "it ends"
    for name in ("late.json",):
        (run.folder / "edits" / name).write_text("[]")
    assert not run.ended() or run.engine == "snakemake", "other scripts are for a new folder"
    (run.folder / "edits/late.json").unlink()


def job(city, run):
    for _ in range(20):
        if run.ended():
            return
    raise AssertionError("it doesn't end, however often it is begun")


def engine(city, run):
    begun = run.begin()
    while begun.poll() is None and len(run.done()) < 3:
        time.sleep(0.02)
    os.killpg(begun.pid, signal.SIGKILL)
    begun.wait()
    done = run.done()
    assert done and not (run.folder / "tiles").exists(), "it was killed in the middle"
    assert run.ended(), "it goes on"
    times = Counter(Path(line).name.removesuffix(".city.json") for line in run.notes.read_text().split())
    assert all(times[tile] == 1 for tile in done), "what is done isn't done again"


def twice(city, run):
    first = run.begin()
    while first.poll() is None and not list(run.folder.glob("scripts/*")):
        time.sleep(0.02)
    second = subprocess.run(["sh", "-c", SNAKE], cwd=run.folder, env=run.names, check=False, capture_output=True)
    assert second.returncode and b"lock" in second.stderr, f"the second is locked out: {second}"
    assert first.wait() == 0, "the first ends"


def full(city, run):
    """The run's own folder is a small file system: base and edits fit it, and some of the new tiles."""
    assert not run.ended() and not (run.folder / "tiles").exists(), "there is no room for all tiles"
    subprocess.run(["mount", "-o", "remount,size=2g", run.folder], check=True)
    assert run.ended(), "it goes on where there is room"


def mounted(folder, city):
    """Whether a file system with room for the city and half of its new tiles is mounted there."""
    size = sum(path.stat().st_size for path in city.models.values()) * 3 // 2 + 2_000_000
    folder.mkdir()
    tried = subprocess.run(["mount", "-t", "tmpfs", "-o", f"size={size}", "tmpfs", folder], check=False,
                           capture_output=True)
    return tried.returncode == 0


KINDS = {"whole": whole, "job": job, "engine": engine, "full": full, "twice": twice}


def trial(room, program, kinds, tiles, scripts):
    city = City(room, tiles, scripts)
    for name in ENGINES:
        if not shutil.which({"shell": "sh"}.get(name, name)):
            print(f"{name}: isn't installed, so nothing was tried by it")
            continue
        for kind in kinds:
            folder = room / f"{name}-{kind}"
            if kind == "twice" and name != "snakemake":
                continue
            if kind == "full" and not mounted(folder, city):
                print(f"{name}, {kind}: no file system may be mounted here")
                continue
            try:
                run = Run(city, name, folder, program, killed=7 if kind == "job" else None)
                KINDS[kind](city, run)
                lines = city.hold(folder)
            finally:
                if kind == "full":
                    subprocess.run(["umount", folder], check=False)
            print(f"{name}, {kind}: {lines} scripts in {len(city.models)} tiles, all as the second reading has them")


def main():
    words = argparse.ArgumentParser(description=__doc__, formatter_class=argparse.RawDescriptionHelpFormatter)
    words.add_argument("program", type=Path)
    words.add_argument("--tiles", type=int, default=60)
    words.add_argument("--scripts", type=int, default=200)
    words.add_argument("--only", choices=KINDS)
    given = words.parse_args()
    with tempfile.TemporaryDirectory(prefix="city-") as room:
        kinds = [given.only] if given.only else list(KINDS)
        trial(Path(room), given.program.resolve(), kinds, given.tiles, given.scripts)


if __name__ == "__main__":
    main()
