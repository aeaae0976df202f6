#!/usr/bin/env python3
"""The steps of a run over a city in tiles. They work in the folder of the run; Snakefile puts them in order.

usage: city.py route          finds the tile of each script of edits/: scripts/BATCH/TILE.HASH.json, refused.txt
       city.py batch BATCH    runs the scripts of a batch: new/TILE.HASH.city.json, reports/TILE.HASH.txt, done/BATCH
       city.py report         the city as it is then: tiles/, report.txt

base/TILE.city.json are the tiles as they were; nothing writes to them. HASH is that of the tile's scripts, and BATCH
has that of all, so what was made of others is never taken for theirs. CITYED may name another program than the one
that is built in this repository.
"""
import json
import os
import re
import shutil
import subprocess
import sys
from collections import Counter
from concurrent.futures import ProcessPoolExecutor
from functools import partial
from hashlib import sha256
from pathlib import Path
from uuid import uuid4

CITYED = os.environ.get("CITYED", Path(__file__).resolve().parents[2] / "crates/cityed/out/cityed")
FORM = ".city.json"
EMPTY = b'{"CityObjects":{},"transform":{"scale":[1,1,1],"translate":[0,0,0]},"type":"CityJSON","version":"2.0",'
EMPTY += b'"vertices":[]}\n'
IDS = ("read", "put", "add", "set", "unset", "reshape", "expect", "delete", "attach", "detach", "parent")
LASTING = ("cityed: model: ", "cityed: scripts: ")  # such a fault comes again, however often it is tried
BATCH = 8_000_000  # bytes of the tiles that are a job of the engine; they are more where that were over 500 jobs
JSON = json.JSONDecoder(parse_int=str)


def put(path, data, sync=True):
    """Puts a file in place whole: it is on the disk before it gets its name."""
    path.parent.mkdir(parents=True, exist_ok=True)
    part = path.with_name(f".part-{uuid4()}")
    try:
        with open(part, "xb") as file:
            file.write(data)
            if sync:
                file.flush()
                os.fsync(file.fileno())
        part.chmod(0o444)
        part.rename(path)
    finally:
        part.unlink(missing_ok=True)


def hashed(texts):
    return sha256("".join(texts).encode()).hexdigest()[:16]


def line(**members):
    return json.dumps(members, sort_keys=True, separators=(",", ":"), ensure_ascii=False) + "\n"


def cityed(*words, text=b""):
    """What a run of one worker gives, which the texts alone decide: its output, and the fault of a text if it has one.
    An OSError may not come another time."""
    ran = subprocess.run([CITYED, "--decimals", *words], input=text, capture_output=True, check=False)
    said = ran.stderr.decode(errors="replace").strip()
    if ran.returncode and not said.startswith(LASTING):
        raise OSError(said or f"cityed: status {ran.returncode}")
    return ran.stdout, said


def scripts_of(path):
    """The scripts of a text, each with its own characters, so that no number is written anew."""
    text = path.read_bytes()
    fault = cityed(text=EMPTY + text)[1]
    if fault:
        raise ValueError(f"{path}: {fault}")
    text, gap = text.decode(), re.compile(r"[\s,]*")
    at = gap.match(text, text.index("[") + 1).end()
    while text[at] != "]":
        script, end = JSON.raw_decode(text, at)
        yield path.stem, script, text[at:end]
        at = gap.match(text, end).end()


def named(script, members):
    """The ids that its commands have under these members."""
    return {it[name] for it in script["commands"] if isinstance(it, dict) for name in members if name in it}


def ids_of(path):
    """The ids of a tile's objects. They are kept in index/, for as long as the tile stays as it is."""
    at = path.stat()
    kept = Path("index", f"{path.name}.{at.st_size}.{at.st_mtime_ns}")
    try:
        return json.loads(kept.read_bytes())
    except (FileNotFoundError, ValueError):
        ids = list(json.loads(path.read_bytes())["CityObjects"])
        put(kept, json.dumps(ids).encode(), sync=False)
        return ids


def found(wanted, path):
    """Which of the wanted objects a tile has."""
    try:
        return wanted.intersection(ids_of(path))
    except (ValueError, LookupError, TypeError) as fault:
        raise ValueError(f"{path} is no CityJSON: {fault}") from None


def route():
    """Finds for each script the one tile that has the objects it names."""
    if Path("tiles").exists():
        raise ValueError("tiles/ is there, so this run is done: other scripts go into a new folder")
    Path("refused.txt").unlink(missing_ok=True)
    shutil.rmtree("scripts", ignore_errors=True)
    Path("scripts").mkdir()
    base = {path.name.removesuffix(FORM): path for path in sorted(Path("base").glob(f"*{FORM}"))}
    scripts = [it for path in sorted(Path("edits").glob("*.json")) for it in scripts_of(path)]
    wanted = {name for _, script, _ in scripts for name in named(script, IDS)}
    homes, texts, refused = {}, {}, ""
    with ProcessPoolExecutor(len(os.sched_getaffinity(0))) as pool:
        for tile, names in zip(base, pool.map(partial(found, wanted), base.values(), chunksize=1 + len(base) // 64)):
            for name in names:
                homes.setdefault(name, set()).add(tile)
    for stem, script, text in scripts:
        tiles = {stem} & base.keys()  # a text that is named like a tile is for that tile
        tiles = sorted(tiles.union(*(homes.get(name, ()) for name in named(script, IDS))))
        if len(tiles) == 1:
            texts.setdefault(tiles[0], []).append(text)
            for name in named(script, ["put", "add"]):  # the scripts behind it find its new objects here
                homes.setdefault(name, set(tiles))
        else:
            cause = "SeveralTiles" if tiles else "NoTile"
            refused += line(cause=cause, name=script["name"], outcome="refused", text=f"{stem}.json", tiles=tiles)
    sizes = {tile: base[tile].stat().st_size for tile in sorted(texts)}
    turn, before, share = hashed(text for *_, text in scripts), 0, max(BATCH, sum(sizes.values()) // 500)
    for tile, size in sizes.items():
        text = f"[{','.join(texts[tile])}]\n"
        put(Path("scripts", f"{turn}-{before // share}", f"{tile}.{hashed(text)}.json"), text.encode(), sync=False)
        before += size
    os.sync()  # all of it is on the disk before this file says so
    put(Path("refused.txt"), refused.encode())
    sys.stderr.write(refused)


def edit(scripts):
    """Runs the scripts of a tile, unless that is done: its report is put in place last."""
    tile, report = scripts.stem.rpartition(".")[0], Path("reports", f"{scripts.stem}.txt")
    if report.exists():
        return
    old, new = Path("base", tile + FORM), Path("new", scripts.stem + FORM)
    new.parent.mkdir(exist_ok=True)
    new.unlink(missing_ok=True)
    ends, fault = cityed("--output", new, old, scripts)
    if fault:
        names = [it["name"] for it in JSON.decode(scripts.read_bytes().decode())]
        ends = [line(fault=fault, name=name, outcome="fault", script=n, tile=tile) for n, name in enumerate(names)]
        os.link(old.resolve(), new)
    else:
        ends = [f"{it.decode()[:-2]},{line(tile=tile)[1:]}" for it in ends.splitlines(keepends=True)]
        new.chmod(0o444)
    if any(JSON.decode(it)["outcome"] == "nomemory" for it in ends):
        raise OSError("a script ran out of memory")
    put(report, "".join(ends).encode())


def batch(name):
    """Runs the scripts of a batch. A file says that all are done: of a machine that goes, srun may answer status 0."""
    faults = []
    for path in sorted(Path("scripts", name).glob("*.json")):
        try:
            edit(path)
        except OSError as fault:
            faults.append(f"{path}: {fault}")
    if faults:
        raise OSError("\ncity: ".join(faults))
    put(Path("done", name), b"")


def report():
    """Puts all tiles in place at once, and then the report: a line for each script, by tiles."""
    jobs = {path.stem.rpartition(".")[0]: path.stem for path in sorted(Path("scripts").glob("*/*.json"))}
    reports = [Path("refused.txt"), *(Path("reports", f"{job}.txt") for job in jobs.values())]
    lines = b"".join(path.read_bytes() for path in reports)
    if not Path("tiles").exists():
        part = Path(f".part-{uuid4()}")
        part.mkdir()
        for old in Path("base").glob(f"*{FORM}"):
            job = jobs.get(old.name.removesuffix(FORM))
            os.link(Path("new", job + FORM) if job else old.resolve(), part / old.name)  # one file, two names
        part.rename("tiles")
    put(Path("report.txt"), lines)
    counts = Counter(JSON.decode(it)["outcome"] for it in lines.decode().split("\n")[:-1])
    print("city: scripts:", ", ".join(f"{n} {it}" for it, n in counts.most_common()))


def main(step="", *names):
    steps = {("route", 0): route, ("batch", 1): batch, ("report", 0): report}
    if (step, len(names)) not in steps:
        sys.exit(__doc__)
    try:
        steps[step, len(names)](*names)
    except (OSError, ValueError) as fault:  # no such program, a full disk, a tile that is cut off ..
        sys.exit(f"city: {fault}")


if __name__ == "__main__":
    main(*sys.argv[1:])
