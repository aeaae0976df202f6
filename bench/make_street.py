#!/usr/bin/env python3
"""Prints examples/street.txt: a street of houses, and a day's edits to it.

usage: make_street.py > examples/street.txt
"""
import json
import sys

from houses import Vertices, box, gabled, several

vertices = Vertices()
objects = {
    "lime-street": {"type": "Road", "attributes": {"surface": "brick", "width": 5200}},
    "lime-1": {"type": "SolitaryVegetationObject", "attributes": {"species": "Tilia cordata", "height": 9200}},
}


def building(number, storeys, parts):
    name = f"lime-street-{number}"
    attributes = {"address": f"Lime Street {number}", "storeys": storeys}
    children = [f"{name}-{part}" for part in parts]
    objects[name] = {"type": "Building", "attributes": attributes, "children": children}
    for part, geometry in parts.items():
        objects[f"{name}-{part}"] = {"type": "BuildingPart", "geometry": geometry, "parents": [name]}


def house(x, eaves, ridge):
    """Its block, and the same with its roof."""
    return [
        box(vertices, x, 0, 6000, 9000, eaves),
        gabled(vertices, x, 0, 6000, 9000, eaves, ridge),
    ]


building(2, 2, {"house": house(0, 5600, 9100), "shed": [box(vertices, 1500, 14000, 2500, 2000, 2300)]})
building(4, 2, {"house": house(6000, 5600, 9100)})
building(6, 3, {"house": house(12000, 8400, 11900), "annexe": [box(vertices, 12000, 9000, 6000, 3000, 3000)]})

garages = [box(vertices, x, 14000, 3000, 6000, 2500) for x in (9000, 12000, 15000)]
objects["lime-street-garages"] = {"type": "Building", "geometry": [several(*garages)]}

city = {
    "type": "CityJSON",
    "version": "2.0",
    "transform": {"scale": [1, 1, 1], "translate": [85000000, 446000000, 0]},
    "metadata": {"title": "Lime Street, in millimetres"},
    "CityObjects": objects,
    "vertices": vertices.points(),
}


def script(name, *commands, vertices=None):
    edit = {"name": name, "commands": list(commands)}
    if vertices is not None:
        edit["vertices"] = vertices.points()
    return edit


def put(name, kind, *geometry):
    return {"put": name, "object": {"type": kind, "geometry": list(geometry)}}


def without_a_roof(geometry):
    geometry["boundaries"][0].pop()
    return geometry


higher, annexe, slip, dormer = Vertices(), Vertices(), Vertices(), Vertices()
edits = [
    script(
        "a storey more on number 4",
        {"read": "lime-street-4-house"},
        put(
            "lime-street-4-house",
            "BuildingPart",
            box(higher, 6000, 0, 6000, 9000, 8400),
            gabled(higher, 6000, 0, 6000, 9000, 8400, 11900),
        ),
        {"put": "lime-street-4", "object": {"type": "Building", "attributes": {"address": "Lime Street 4", "storeys": 3}}},
        "commit",
        vertices=higher,
    ),
    script(
        "an annexe to number 4",
        put("lime-street-4-annexe", "BuildingPart", box(annexe, 6000, 9000, 6000, 3000, 3000)),
        {"attach": "lime-street-4-annexe", "parent": "lime-street-4"},
        "commit",
        vertices=annexe,
    ),
    script("the shed of number 2 goes", {"delete": "lime-street-2-shed"}, "commit"),
    script(
        "a roof with a hole",
        put("lime-street-6-house", "BuildingPart", without_a_roof(gabled(slip, 12000, 0, 6000, 9000, 8400, 11900))),
        "commit",
        vertices=slip,
    ),
    script(
        "a part of no building",
        put("lime-street-8-house", "BuildingPart", box(dormer, 18000, 0, 6000, 9000, 5600)),
        "commit",
        vertices=dormer,
    ),
    script("a plan that is dropped", {"delete": "lime-1"}, {"read": "lime-1"}, "abort"),
]
json.dump(city, sys.stdout, separators=(",", ":"))
sys.stdout.write("\n")
json.dump(edits, sys.stdout, separators=(",", ":"))
sys.stdout.write("\n")
