#!/usr/bin/env python3
"""Makes a city in tiles of 3DBAG form, in metres, and scripts that edit it.

usage: make_tiles.py FOLDER [--tiles N] [--big N] [--scripts N] [--most N] [--across N] [--seed N]

FOLDER/tiles gets the tiles, NAME.city.json: each of 4 to 120 buildings (or the most that are asked for), but for the
big ones, which have 400 to 1,900 and 1 to 5 MB. FOLDER/edits/night.json gets scripts over all tiles, and
FOLDER/edits/NAME.json, named like one tile, three that put new objects alone. Some are refused, some abort; of more
than twenty one names objects of two tiles, and one objects of none.
"""
import argparse
import json
import math
import random
from pathlib import Path

APART = 24_000  # from one building to the next, in millimetres


def faces(n):
    """A prism over n corners, 0 to n - 1 below and n to 2n - 1 above: ground, roof, walls."""
    walls = [[k, (k + 1) % n, (k + 1) % n + n, k + n] for k in range(n)]
    return [list(range(n))[::-1], list(range(n, 2 * n))] + walls


def footprint(rng, x, y):
    """A house with an outbuilding: an L or a box, in millimetres of the tile's grid."""
    w, d = rng.randrange(5000, 12000), rng.randrange(6000, 14000)
    if rng.random() < 0.5:
        return [(x, y), (x + w, y), (x + w, y + d), (x, y + d)]
    v, e = w // 2, d // 2
    return [(x, y), (x + w, y), (x + w, y + e), (x + v, y + e), (x + v, y + d), (x, y + d)]


class Vertices(dict):
    def at(self, point):
        return self.setdefault(point, len(self))


def solid(vertices, corners, ground, top, lod):
    n = len(corners)
    places = [vertices.at((*c, ground)) for c in corners] + [vertices.at((*c, top)) for c in corners]
    kinds = [{"type": "GroundSurface"}, {"type": "RoofSurface", "b3_hellingshoek": 0.0}, {"type": "WallSurface", "on_footprint_edge": True}]
    return {
        "type": "Solid",
        "lod": lod,
        "boundaries": [[[[places[k] for k in face]] for face in faces(n)]],
        "semantics": {"surfaces": kinds, "values": [[0, 1] + [2] * n]},
    }


def attributes(rng, top):
    return {
        "b3_bag_bag_overlap": 0.0,
        "b3_dak_type": rng.choice(["slanted", "horizontal", "multiple horizontal"]),
        "b3_h_dak_50p": round(top / 1000 + rng.random(), 7),
        "b3_h_dak_70p": top / 1000 + rng.random(),
        "b3_h_maaiveld": -0.4390000104904175,
        "b3_kas_warenhuis": False,
        "b3_mutatie_ahn3_ahn4": rng.random() < 0.05,
        "b3_nodata_fractie_ahn4": rng.random() * 1e-3,
        "b3_opp_grond": round(rng.uniform(40, 400), 2),
        "b3_puntdichtheid_ahn4": round(rng.uniform(8, 30), 14),
        "b3_pw_bron": "ahn4",
        "b3_volume_lod22": rng.uniform(90, 4000),
        "documentdatum": "2015-06-23",
        "identificatie": None,
        "oorspronkelijkbouwjaar": rng.randrange(1880, 2024),
        "status": "Pand in gebruik",
        "tijdstipregistratie": "2015-06-23T15:21:02Z",
        "voorkomenidentificatie": 1,
    }


def building(rng, vertices, name, x, y, objects):
    corners, top = footprint(rng, x, y), rng.randrange(3000, 18000)
    flat = {"type": "MultiSurface", "lod": "0", "boundaries": [[[vertices.at((*c, -439)) for c in corners]]]}
    objects[name] = {
        "type": "Building",
        "attributes": {**attributes(rng, top), "identificatie": name},
        "children": [f"{name}-0"],
        "geometry": [flat],
    }
    heights = {"1.2": top, "1.3": top + 300, "2.2": top + 850}
    objects[f"{name}-0"] = {
        "type": "BuildingPart",
        "parents": [name],
        "geometry": [solid(vertices, corners, -439, height, lod) for lod, height in heights.items()],
    }


def tile(rng, number, columns, across, buildings):
    """A tile of so many buildings, so many in a row; tiles stand in so many columns."""
    vertices, objects, side = Vertices(), {}, across * APART // 1000
    east, north = 84000 + number % columns * side, 446000 + number // columns * side
    for k in range(buildings):
        name = f"NL.IMBAG.Pand.0503{number:05d}{k:07d}"
        building(rng, vertices, name, k % across * APART, k // across * APART, objects)
    return {
        "type": "CityJSON",
        "version": "2.0",
        "transform": {"scale": [0.001, 0.001, 0.001], "translate": [east + 0.1, north + 0.25, -5.3]},
        "metadata": {
            "identifier": "-".join(map(str, (10, 200 + number % columns * 4, 500 + number // columns * 4))),
            "geographicalExtent": [east + 0.1, north + 0.25, -5.3, east + side + 0.1, north + side + 0.25, 40.2],
            "referenceDate": "2026-11-25",
            "referenceSystem": "https://www.opengis.net/def/crs/OGC/0/EPSG:7415",
            "title": "3DBAG",
        },
        "CityObjects": objects,
        "vertices": [list(point) for point in vertices],
    }


def script(rng, n, houses, across):
    """One of the edits that an office makes, of one of the houses of a tile."""
    house = rng.choice(houses)
    part, kind = f"{house}-0", rng.random()
    vertices = Vertices()
    k = int(house[-7:])
    x, y = k % across * APART, k // across * APART
    if kind < 0.45:  # a storey more: the part gets another solid
        corners = footprint(rng, x, y)
        body = {"type": "BuildingPart", "geometry": [solid(vertices, corners, -439, 21000 + n, lod) for lod in ("1.2", "2.2")]}
        commands = [{"read": house}, {"put": part, "object": body}, "commit"]
    elif kind < 0.75:  # a shed for the house: the parent says which tile
        shed = [(x + 14500, y), (x + 18500, y), (x + 18500, y + 6000), (x + 14500, y + 6000)]
        body = {"type": "BuildingPart", "attributes": {"height": 2.50}, "geometry": [solid(vertices, shed, 0, 2500, "1.2")]}
        commands = [{"put": f"{house}-shed-{n}", "object": body}, {"attach": f"{house}-shed-{n}", "parent": house}, "commit"]
    elif kind < 0.80:  # tried, and taken back
        commands = [{"detach": part, "parent": house}, {"delete": part}, "abort"]
    elif kind < 0.85:  # refused: the part would be an orphan
        commands = [{"detach": part, "parent": house}, "commit"]
    elif kind < 0.95:  # pulled down
        commands = [{"detach": part, "parent": house}, {"delete": part}, {"delete": house}, "commit"]
    else:  # a pond for the house: reading the house says which tile
        commands = [{"read": house}, {"put": f"pond-{n}", "object": {"type": "WaterBody", "attributes": {"area": 12.250}}}, "commit"]
    made = {"name": f"edit {n}", "commands": commands}
    return {**made, "vertices": [list(point) for point in vertices]} if vertices else made


def main():
    words = argparse.ArgumentParser(description=__doc__, formatter_class=argparse.RawDescriptionHelpFormatter)
    words.add_argument("folder", type=Path)
    for name, value in (("tiles", 60), ("big", 1), ("scripts", 200), ("most", 120), ("across", 40), ("seed", 1)):
        words.add_argument(f"--{name}", type=int, default=value)
    given = words.parse_args()
    rng, folder = random.Random(given.seed), given.folder
    (folder / "tiles").mkdir(parents=True)
    (folder / "edits").mkdir()
    houses, size, columns = {}, 0, math.ceil(math.sqrt(given.tiles))
    for number in range(given.tiles):
        buildings = rng.randrange(400, 1900) if number < given.big else rng.randrange(4, given.most)
        city = tile(rng, number, columns, given.across, buildings)
        name = city["metadata"]["identifier"]
        text = json.dumps(city, separators=(",", ":"))
        (folder / "tiles" / f"{name}.city.json").write_text(text)
        houses[name] = [it for it in city["CityObjects"] if "-" not in it]
        size += len(text)
    names = list(houses)
    edits = [script(rng, n, houses[rng.choice(names)], given.across) for n in range(given.scripts)]
    if given.scripts > 20:
        one, two = houses[names[0]][0], houses[names[1]][0]
        edits[7] = {"name": "a party wall over the border", "commands": [{"read": one}, {"read": two}, "commit"]}
        edits[11] = {"name": "a pond somewhere", "commands": [{"put": "pond", "object": {"type": "WaterBody"}}, "commit"]}
    (folder / "edits" / "night.json").write_text("[" + ",\n".join(json.dumps(it) for it in edits) + "]\n")
    lamp = {"type": "CityFurniture", "attributes": {"lux": 12.50}}
    lamps = [{"name": f"lamp {k}", "commands": [{"put": f"lamp-{k}", "object": lamp}, "commit"]} for k in range(3)]
    (folder / "edits" / f"{names[5 % given.tiles]}.json").write_text(json.dumps(lamps))
    print(f"{given.tiles} tiles, {size / 1e6:.0f} MB, {given.scripts} scripts")


main()
