#!/usr/bin/env python3
"""Prints a city, and scripts that edit it, as the program reads them.

usage: make_city.py plain [OBJECTS] [BYTES_EACH] [SCRIPTS] > input
       make_city.py solids [BUILDINGS] [SCRIPTS] > input
       make_city.py prisms [BUILDINGS] [SCRIPTS] > input
       make_city.py metres [BUILDINGS] [SCRIPTS] > input
       make_city.py parts [PARTS] [SCRIPTS] > input

`plain` has objects of attributes alone; `solids` has buildings, each with a part that has a block
and a gabled house as its geometries; `prisms` has buildings of 24 sides with semantics and many
attributes, `metres` the same with areas, heights and a transform in metres (for `--decimals`);
`parts` has one building that lists its parts in no order.
"""
import json
import random
import sys

from houses import Vertices, box, gabled, prism
from plain import plain_object

WHOLE = {"scale": [1, 1, 1], "translate": [0, 0, 0]}
METRES = {"scale": [0.001, 0.001, 0.001], "translate": [85000.123, 447000.5, -1.25]}


def plain_city(count, size):
    return {f"object-{n:08}": plain_object(n, size) for n in range(count)}, Vertices()


def solid_city(count):
    """Houses in rows of 1,000, wall to wall, so that neighbours share corners."""
    vertices = Vertices()
    objects = {}
    for n in range(count):
        x, y = n % 1000 * 6000, n // 1000 * 20000
        name = f"object-{n:08}"
        part = f"{name}-house"
        geometry = [box(vertices, x, y, 6000, 9000, 5600), gabled(vertices, x, y, 6000, 9000, 5600, 9100)]
        objects[name] = {"type": "Building", "attributes": {"number": n}, "children": [part]}
        objects[part] = {"type": "BuildingPart", "geometry": geometry, "parents": [name]}
    return objects, vertices


def prism_city(count):
    """Buildings in rows of 200: two fifths of the text are attributes and semantics, the rest solids."""
    vertices = Vertices()
    objects = {}
    for n in range(count):
        geometry = prism(vertices, n % 200 * 30000, n // 200 * 30000, 10000, 9000 + n % 7, 24)
        surfaces = [{"type": "GroundSurface"}, {"type": "RoofSurface"}, {"type": "WallSurface"}]
        geometry["semantics"] = {"surfaces": surfaces, "values": [[0, 1] + [2] * 24]}
        storeys = [
            {"level": level, "use": "dwelling", "area": 100 + level, "tenants": [f"t{n * 7 + level}", f"u{n + level}"]}
            for level in range(14)
        ]
        attributes = {"number": n, "owner": "municipality", "storeys": storeys, "remark": "x" * 250}
        objects[f"object-{n:08}"] = {"type": "Building", "attributes": attributes, "geometry": [geometry]}
    return objects, vertices


def in_metres(objects):
    for n, building in enumerate(objects.values()):
        for storey in building["attributes"]["storeys"]:
            storey["area"] += 0.25
        building["attributes"]["height"] = (32 + n % 10 * 10) / 10


def parts_city(count):
    parts = [f"object-{n:08}" for n in range(count)]
    objects = {part: {"type": "BuildingPart", "parents": ["tower"]} for part in parts}
    random.Random(1).shuffle(parts)
    objects["tower"] = {"type": "Building", "children": parts}
    return objects, Vertices()


def number_at(place, otherwise):
    return int(sys.argv[place]) if len(sys.argv) > place else otherwise


kind = sys.argv[1] if len(sys.argv) > 1 else "plain"
if kind == "plain":
    objects, vertices = plain_city(number_at(2, 100_000), number_at(3, 600))
    scripts = number_at(4, 1)
elif kind == "solids":
    objects, vertices = solid_city(number_at(2, 70_000))
    scripts = number_at(3, 1)
elif kind in ("prisms", "metres"):
    objects, vertices = prism_city(number_at(2, 16_000))
    scripts = number_at(3, 1)
    if kind == "metres":
        in_metres(objects)
elif kind == "parts":
    objects, vertices = parts_city(number_at(2, 64_000))
    scripts = number_at(3, 1)
else:
    sys.exit(__doc__)

city = {
    "type": "CityJSON",
    "version": "2.0",
    "transform": METRES if kind == "metres" else WHOLE,
    "CityObjects": objects,
    "vertices": vertices.points(),
}
edits = [
    {
        "name": f"script-{n}",
        "commands": [
            {"read": f"object-{n:08}"},
            {"put": f"new-{n:08}", "object": {"type": "Road"}},
            "commit",
        ],
    }
    for n in range(scripts)
]
json.dump(city, sys.stdout, separators=(",", ":"))
sys.stdout.write("\n")
json.dump(edits, sys.stdout, separators=(",", ":"))
