#!/usr/bin/env python3
"""Texts whose lines of `cityed --check` were written by hand.

    python3 testing/known_diagnostics.py

compares the second reading (diagnostics.py) with them. checked_texts.py compares the program with both.
"""

import json
import sys

from script_diagnostics import check
from samples import EMPTY

TRIANGLE = [[0, 0, 0], [1, 0, 0], [0, 1, 0]]
PLAIN = {"CityObjects": {}, "transform": {"scale": [1, 1, 1], "translate": [0, 0, 0]}, "type": "CityJSON"}
PLAIN |= {"version": "2.0", "vertices": []}


def model(objects, vertices=(), **others):
    return json.dumps({**PLAIN, "CityObjects": objects, "vertices": list(vertices), **others}).encode("utf-8")


def told(number, fault, **members):
    return {"text": "model", "number": number, "fault": fault, **members}


def of_scripts(number, fault, **members):
    return {"text": "scripts", "number": number, "fault": fault, **members}


def shaped(kind, boundaries, **others):
    return {"type": "Road", "geometry": [{"type": kind, "lod": "1", "boundaries": boundaries}], **others}


def scripts(*commands, **others):
    return json.dumps([{"name": "s", "commands": [*commands, "commit"], **others}]).encode("utf-8")


BROKEN_JSON = {"line": None, "column": None, "reason": None}
OPEN_EDGES = [
    {"from": [0, 0, 0], "ring": 0, "surface": 0, "to": [1, 0, 0]},
    {"from": [1, 0, 0], "ring": 0, "surface": 0, "to": [0, 1, 0]},
    {"from": [0, 1, 0], "ring": 0, "surface": 0, "to": [0, 0, 0]},
]

# models, and what is told of them
MODELS = [
    (EMPTY, []),
    (b"", [told(2, "NotJson", form="empty")]),
    (b" \n\t", [told(2, "NotJson", form="empty")]),
    (b"\xef\xbb\xbf" + EMPTY, [told(2, "NotJson", form="byte order mark")]),
    (b"\xff\xfe{\x00}\x00", [told(2, "NotJson", form="UTF-16")]),
    (b"{\x00}\x00", [told(2, "NotJson", form="UTF-16")]),
    (b'{"a":1 "b":2}', [told(2, "NotJson", **BROKEN_JSON)]),
    (b"[" * 128 + b"]" * 128, [told(2, "NotJson", **BROKEN_JSON)]),
    (EMPTY.replace(b"[0,0,0]", b"[0,0.50,0]"), [told(3, "NotWhole", path="transform.translate[1]", value="0.50")]),
    (model({"b 12": 1}).replace(b"1}", b'{"h":1e3}}'), [told(3, "NotWhole", path='CityObjects["b 12"].h', value="1e3")]),
    (b'{"b":2.5,"a":{"z":1.5,"z":1},"c":[0,-0]}', [told(3, "NotWhole", path="b", value="2.5")]),
    (b"[1, [-0]]", [told(3, "NotWhole", path="[1][0]", value="-0")]),
    (b"[]", [told(4, "NotCityJson", member="type", form="scripts")]),
    (b"3", [told(4, "NotCityJson", member="type", path="type")]),
    (b'{"type":"CityGML"}', [told(4, "NotCityJson", member="type", path="type", given="CityGML")]),
    (b'{"type":"CityJSON","version":2}', [told(4, "NotCityJson", member="version", path="version")]),
    (
        model({}, transform={"scale": [1, 1, 1], "translate": [0, 0]}),
        [told(4, "NotCityJson", member="transform", path="transform.translate")],
    ),
    (model({"b": {}, "a1": 7}), [told(4, "NotCityJson", member="CityObjects", path="CityObjects.a1")]),
    (model({"1a": 7}), [told(4, "NotCityJson", member="CityObjects", path='CityObjects["1a"]')]),
    (model({}, [[0, 0, 0], [0, 0]]), [told(4, "NotCityJson", member="vertices", path="vertices[1]")]),
    (model({}, extensions={"a": 1}), [told(4, "NotCityJson", member="extensions", path="extensions")]),
    (
        model({"b": {"type": "Bulding"}, "a": {}}),
        [told(5, "UnknownType", id="a"), told(5, "UnknownType", id="b", given="Bulding")],
    ),
    (
        model({"a": {"type": "Road", "geometry": [{"type": "Solid", "lod": "1", "boundaries": []}, {"type": "MultiPoint"}]}}),
        [
            told(6, "Unsupported", id="a", name="MultiPoint", geometry=1),
            told(7, "BadGeometry", id="a", geometry=1, part="lod"),
        ],
    ),
    (model({"a": {"type": "Road", "address": [{"location": 1}]}}), [told(6, "Unsupported", id="a", name="location")]),
    (model({"a": {"type": "Road", "geometry": {}}}), [told(7, "BadGeometry", id="a", part="geometry")]),
    (model({"a": shaped("Solyd", [])}), [told(7, "BadGeometry", id="a", geometry=0, part="type", given="Solyd")]),
    (model({"a": shaped("Solid", [[[0]]])}), [told(7, "BadGeometry", id="a", geometry=0, part="boundaries")]),
    (
        model({"a": shaped("MultiSolid", [[], [[], [[[0, 1, 2]], [[], [2, 0, 3]]]]])}, TRIANGLE),
        [
            told(8, "BadVertex", id="a", geometry=0, lod="1", solid=1, shell=1, surface=1, ring=1, item=2, position=3, vertices=3),
        ],
    ),
    (
        model({"a": shaped("CompositeSurface", [[[0, 1, 2], []], [[0, 1, 0]]])}, TRIANGLE),
        [told(9, "BadRing", id="a", geometry=0, lod="1", surface=0, ring=1, rule="short ring", points=0)],
    ),
    (
        model({"a": shaped("MultiSurface", [[[0, 1, 2, 3]]])}, [*TRIANGLE, [0, 0, 0]]),
        [told(9, "BadRing", id="a", geometry=0, lod="1", surface=0, ring=0, rule="equal neighbours", point=[0, 0, 0])],
    ),
    (
        model({"a": shaped("Solid", [[], [[]]])}),
        [told(9, "BadRing", id="a", geometry=0, lod="1", shell=1, surface=0, rule="no ring")],
    ),
    (
        model({"a": {"type": "Road", "parents": ["x"]}, "b": {"type": "BuildingPart"}, "c": {"type": "+C", "children": [1]}}),
        [
            told(5, "UnknownType", id="c", given="+C"),
            told(10, "Relations", id="a", rule="first-level with parents", list="parents", other="x"),
            told(10, "Relations", id="b", rule="no parents", list="parents"),
            told(10, "Relations", id="c", rule="no list of ids", list="children"),
        ],
    ),
    (
        model({
            "a": {"type": "BuildingPart", "parents": ["b"]},
            "b": {"type": "Road", "children": ["a", "d", "c"]},
            "c": {"type": "BuildingPart", "parents": ["c"]},
            "d": {"type": "BridgePart", "parents": ["b", "f", "f", "b"]},
            "e": {"type": "BuildingPart", "parents": ["g"]},
            "g": {"type": "+G", "children": ["e"]},
        }),
        [
            told(5, "UnknownType", id="g", given="+G"),
            told(10, "Relations", id="a", rule="other family", list="parents", other="b"),
            told(10, "Relations", id="b", rule="not mutual", list="children", other="c"),
            told(10, "Relations", id="c", rule="itself", list="parents", other="c"),
            told(10, "Relations", id="d", rule="repeated", list="parents", other="f"),
            told(10, "Relations", id="e", rule="missing", list="parents", other="g"),
        ],
    ),
    (
        model({"a": shaped("Solid", [[], [[[0, 1, 2]]]])}, TRIANGLE),
        [told(11, "OpenShell", id="a", geometry=0, lod="1", shell=1, edges=OPEN_EDGES)],
    ),
    (
        model({"a": shaped("CompositeSolid", [[[[[0, 1, 2]]] * 34]])}, TRIANGLE),
        [
            told(11, "OpenShell", id="a", geometry=0, lod="1", solid=0, shell=0, more=2, edges=[
                {**OPEN_EDGES[at % 3], "surface": at // 3} for at in range(100)
            ]),
        ],
    ),
]

PUT = {"put": "a", "object": {"type": "Road"}}

# scripts, and what is told of them
SCRIPTS = [
    (b"[]", []),
    (b"{}", [of_scripts(4, "NotScripts")]),
    (EMPTY, [of_scripts(4, "NotScripts", form="model")]),
    (b"[", [of_scripts(2, "NotJson", **BROKEN_JSON)]),
    (
        scripts({"put": "a", "object": {"type": "Road", "x": [0, 1.5]}}),
        [of_scripts(3, "NotWhole", path="[0].commands[0].object.x[1]", value="1.5")],
    ),
    (
        json.dumps([
            1,
            {"commands": ["commit"]},
            {"name": "s"},
            {"name": "s", "commands": [{"read": "a"}]},
            {"name": "s", "commands": [{"read": "a"}, "abort", "commit"]},
            {"name": "s", "commands": ["commit"], "vertices": [[0, 0]]},
            {"name": "s", "commands": ["commit"], "more": 1, "even": 1},
            {"name": "s", "commands": [{"raed": "a"}, {"read": 1}, "commit"]},
        ]).encode("utf-8"),
        [
            of_scripts(5, "BadScript", script=0, rule="no object"),
            of_scripts(5, "BadScript", script=1, rule="name"),
            of_scripts(5, "BadScript", script=2, rule="commands"),
            of_scripts(5, "BadScript", script=3, rule="no end"),
            of_scripts(5, "BadScript", script=4, rule="end not last", command=1),
            of_scripts(5, "BadScript", script=5, rule="vertices"),
            of_scripts(5, "BadScript", script=6, rule="member", member="even"),
            of_scripts(7, "BadCommand", script=7, command=0, rule="no command", given="raed", nearest="read"),
            of_scripts(7, "BadCommand", script=7, command=1, rule="no text", member="read"),
        ],
    ),
    (
        scripts(3, "comit", {}, {"zzz": 1, "object": {}}, {"attach": 1}, {"attach": 1, "parent": 2}, {"read": 1, "mark": 2, "b": 3}),
        [
            of_scripts(7, "BadCommand", script=0, command=0, rule="no command"),
            of_scripts(7, "BadCommand", script=0, command=1, rule="no command", given="comit", nearest="commit"),
            of_scripts(7, "BadCommand", script=0, command=2, rule="no command"),
            of_scripts(7, "BadCommand", script=0, command=3, rule="no command", given="object"),
            of_scripts(7, "BadCommand", script=0, command=4, rule="missing", member="parent"),
            of_scripts(7, "BadCommand", script=0, command=5, rule="no text", member="attach"),
            of_scripts(7, "BadCommand", script=0, command=6, rule="member", member="b"),
        ],
    ),
    (
        scripts(
            {"put": "a", "object": 1},
            {"put": "a", "object": {"children": [], "parents": []}},
            {"put": "a", "object": {"type": "Rode"}},
            {"put": "a", "object": {"type": "Road", "geometry": [{"type": "MultiPoint"}]}},
            {"put": "a", "object": shaped("Solid", 1)},
            {"put": "a", "object": shaped("MultiSurface", [[[0, 1, 3]]])},
            PUT,
            vertices=TRIANGLE,
        ),
        [
            of_scripts(7, "BadCommand", script=0, command=0, rule="no object"),
            of_scripts(7, "BadCommand", script=0, command=1, rule="relations", member="parents"),
            of_scripts(7, "BadCommand", script=0, command=2, rule="type", given="Rode"),
            of_scripts(7, "BadCommand", script=0, command=3, rule="unsupported", name="MultiPoint", geometry=0),
            of_scripts(7, "BadCommand", script=0, command=4, rule="geometry", geometry=0, part="boundaries"),
            of_scripts(
                8, "BadVertex", script=0, command=5, geometry=0, lod="1", surface=0, ring=0, item=2, position=3, vertices=3
            ),
        ],
    ),
    (
        scripts(
            {"set": "a"},
            {"set": "a", "object": {"type": "Road"}},
            {"set": 1, "attributes": 2},
            {"set": "a", "attributes": ["n"]},
            {"expect": "a", "attributes": None},
            {"unset": "a", "attributes": {"n": 1}},
            {"unset": "a", "attributes": ["n", "m", 3]},
            {"unset": "a", "attributes": ["n"], "expect": "b"},
            {"add": "a", "object": {"type": "Road", "children": []}},
            {"add": "a", "object": []},
            {"reshape": "a", "geometry": {}},
            {"reshape": "a", "geometry": [{"type": "Solid", "lod": 1}]},
            {"reshape": "a", "geometry": [{"type": "Solid", "lod": "1", "boundaries": []}, {"type": "MultiPoint"}]},
            {"reshape": "a", "geometry": shaped("MultiSurface", [[[0, 1, 2], [2, 1, -1]]])["geometry"]},
            {"reset": "a", "attributes": {}},
            {"unset": "a", "attributes": []},
            {"reshape": "a", "geometry": []},
            vertices=TRIANGLE,
        ),
        [
            of_scripts(7, "BadCommand", script=0, command=0, rule="missing", member="attributes"),
            of_scripts(7, "BadCommand", script=0, command=1, rule="missing", member="attributes"),
            of_scripts(7, "BadCommand", script=0, command=2, rule="no text", member="set"),
            of_scripts(7, "BadCommand", script=0, command=3, rule="attributes"),
            of_scripts(7, "BadCommand", script=0, command=4, rule="attributes"),
            of_scripts(7, "BadCommand", script=0, command=5, rule="attributes"),
            of_scripts(7, "BadCommand", script=0, command=6, rule="attributes", item=2),
            of_scripts(7, "BadCommand", script=0, command=7, rule="member", member="expect"),
            of_scripts(7, "BadCommand", script=0, command=8, rule="relations", member="children"),
            of_scripts(7, "BadCommand", script=0, command=9, rule="no object"),
            of_scripts(7, "BadCommand", script=0, command=10, rule="geometry", part="geometry"),
            of_scripts(7, "BadCommand", script=0, command=11, rule="geometry", geometry=0, part="lod"),
            of_scripts(7, "BadCommand", script=0, command=12, rule="unsupported", name="MultiPoint", geometry=1),
            of_scripts(7, "BadCommand", script=0, command=14, rule="no command", given="reset", nearest="set"),
            of_scripts(
                8, "BadVertex", script=0, command=13, geometry=0, lod="1", surface=0, ring=1, item=2, position=-1, vertices=3
            ),
        ],
    ),
    (scripts(*[{"read": "a"}] * 1024), [of_scripts(6, "TooMany", script=0, commands=1025)]),
    (b"[" + b",".join([b"1"] * 2 + [scripts()[1:-1]] * 4096) + b"]", [
        of_scripts(5, "BadScript", script=0, rule="no object"),
        of_scripts(5, "BadScript", script=1, rule="no object"),
        of_scripts(6, "TooMany", scripts=4098),
    ]),
]

# models and scripts whose numbers may have any form
WITH_DECIMALS = [
    (EMPTY.replace(b"[0,0,0]", b"[0,0.50,0]"), b"[]", []),
    (EMPTY.replace(b"[0,0,0]", b"[0,0.50]"), b"[]", [told(4, "NotCityJson", member="transform", path="transform.translate")]),
    (model({}, [[0, 0, 0.5]]), b"[]", [told(4, "NotCityJson", member="vertices", path="vertices[0]")]),
    (model({"b": 1.5}), b"[]", [told(5, "UnknownType", id="b")]),
    (b'{"a":1e999}', b"[]", [told(4, "NotCityJson", member="type", path="type")]),
    (b"[" * 127 + b"0.5" + b"]" * 127, b"[]", [told(2, "NotJson", reason=None)]),
    (b"[" * 128 + b"]" * 128, b"[]", [told(2, "NotJson", reason=None)]),
    (b"[1.5", b"{", [told(2, "NotJson", **BROKEN_JSON), of_scripts(2, "NotJson", **BROKEN_JSON)]),
    (EMPTY, scripts({"read": 0.5}), [of_scripts(7, "BadCommand", script=0, command=0, rule="no text", member="read")]),
    (EMPTY, b"1.5", [of_scripts(4, "NotScripts")]),
]


def cases():
    """Each case: a model, scripts, whether numbers may have any form, and the lines."""
    yield from ((text, b"[]", False, lines) for text, lines in MODELS)
    yield from ((EMPTY, text, False, lines) for text, lines in SCRIPTS)
    yield from ((document, text, True, lines) for document, text, lines in WITH_DECIMALS)


def main():
    count = 0
    for document, text, decimals, wanted in cases():
        found = check(document, text, decimals)
        if found != wanted:
            print(f"DIFFERENT: {document[:300]} {text[:300]}\n  found {found}\n  wanted {wanted}")
            return 1
        count += 1
    print(f"{count} texts as they were told by hand")
    return 0


if __name__ == "__main__":
    sys.exit(main())
