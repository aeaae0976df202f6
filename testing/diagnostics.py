"""What `cityed --check` tells of a model and of scripts, found a second time, in plain Python.

Each line is a dictionary with all its members but `message` and `cure`. A fault of NotJson has `line`, `column` and
`reason` as None: only whether they are there is told. It shares no code with the program, and goes through each text
a fixed number of times, however many faults there are. What stands on a text of scripts is in script_diagnostics.py.
"""

import json
import re
import sys
from collections import Counter

from documents import FAMILY_OF, NESTING, UNSUPPORTED, is_nested
from json_tree import LONGEST, Fault, Parser, are_texts, is_triple
from number_texts import encoded_top, text_of, value_of

MOST_EDGES = 100
# how deep a text with numbers of any form may nest here: far deeper than what is read of it afterwards
DEEPEST_GIVEN = 2_000
sys.setrecursionlimit(20_000)


class Written:
    """A number that isn't a whole number of 64 bits, as it is written."""

    def __init__(self, text):
        self.text = text


class WrittenParser(Parser):
    """A parser that keeps how numbers are written."""

    def fraction(self, digits):
        super().fraction(digits)
        return Written(digits)


class AnyNumberParser(Parser):
    """A parser that takes numbers of any size, and texts that nest deeper than those that are read."""

    def fraction(self, digits):
        return Written(digits)

    def whole_text(self):
        value = self.value(DEEPEST_GIVEN)
        self.space()
        if self.at != len(self.text):
            self.refuse()
        return value


# ---- texts


def line(text, number, fault, **members):
    """A line about a text. Members that are None aren't there."""
    there = {name: value for name, value in members.items() if value is not None}
    return {"text": text, "number": number, "fault": fault, **there}


def is_json(text):
    try:
        AnyNumberParser(text).whole_text()
    except Fault:
        return False
    return True


def read(kind, text, decimals):
    """Returns the tree of a text, and the line of a fault that it has as a text; one of them is None."""
    is_given = True
    if decimals and len(text) <= LONGEST and is_json(text):
        text, is_given = text_of(encoded_top(value_of(text))).encode("utf-8"), False
    if len(text) > LONGEST:
        return None, line(kind, 1, "TooLong")
    try:
        tree = WrittenParser(text).whole_text()
    except Fault:
        return None, not_json(kind, text, is_given)
    found = first_fraction(tree)
    if found:
        return None, line(kind, 3, "NotWhole", path=path_text(found[0]), value=found[1])
    return tree, None


def not_json(kind, text, is_given):
    told = line(kind, 2, "NotJson")
    form = form_of_text(text)
    if form:
        return {**told, "form": form}
    return {**told, "reason": None, **({"line": None, "column": None} if is_given else {})}


def form_of_text(text):
    if not text.strip(b" \t\n\r"):
        return "empty"
    if text.startswith(b"\xef\xbb\xbf"):
        return "byte order mark"
    if text.startswith(b"\x1f\x8b"):
        return "gzip"
    if text[:2] in (b"\xfe\xff", b"\xff\xfe") or 0 in text[:2]:
        return "UTF-16"
    if any(is_feature(it) for it in text.split(b"\n", 2)[:2]):
        return "CityJSONSeq"
    return None


def is_feature(text):
    """Whether a line is a line of CityJSONSeq."""
    try:
        tree = WrittenParser(text).whole_text()
    except Fault:
        return False
    return isinstance(tree, dict) and tree.get("type") == "CityJSONFeature"


def first_fraction(tree, path=()):
    """The path and the text of the first number that isn't whole, or None."""
    if isinstance(tree, Written):
        return path, tree.text
    steps = sorted(tree) if isinstance(tree, dict) else range(len(tree)) if isinstance(tree, list) else ()
    for step in steps:
        if isinstance(tree[step], (dict, list, Written)):
            found = first_fraction(tree[step], (*path, step))
            if found:
                return found
    return None


def path_text(steps):
    made = ""
    for step in steps:
        if isinstance(step, int):
            made += f"[{step}]"
        elif re.fullmatch("[A-Za-z_][A-Za-z0-9_]*", step, re.ASCII):
            made += ("." if made else "") + step
        else:
            made += "[" + json.dumps(step, ensure_ascii=False) + "]"
    return made


# ---- a model


def check_document(text, decimals=False):
    """The lines of a model's text."""
    tree, told = read("model", text, decimals)
    if told is None:
        told = wrong_top(tree)
    if told is not None:
        return [told]
    objects, vertices = tree["CityObjects"], tree["vertices"]
    faults = {number: [] for number in range(5, 12)}
    built = {}
    for name in sorted(objects):
        found = list(tree_faults(objects[name], len(vertices)))
        for number, fault, details in found:
            faults[number].append(line("model", number, fault, id=name, **details))
        if not found:
            built[name] = objects[name]
    lists = {name: [ids_of(obj, kind) for kind in ("parents", "children")] for name, obj in built.items()}
    sets = {name: [set(ids) for ids in both] for name, both in lists.items()}
    for name in sorted(objects):
        details = relations_fault(objects[name], name, built, lists, sets)
        if details:
            faults[10].append(line("model", 10, "Relations", id=name, **details))
    for name, obj in built.items():
        for number, fault, find in ((9, "BadRing", bad_ring), (11, "OpenShell", open_shell)):
            details = find(obj, vertices)
            if details:
                faults[number].append(line("model", number, fault, id=name, **details))
    return [each for number in sorted(faults) for each in faults[number]]


def wrong_top(tree):
    """The line of the first member of the top that is wrong."""
    if isinstance(tree, list):
        return line("model", 4, "NotCityJson", member="type", form="scripts")
    top = tree if isinstance(tree, dict) else {}
    for member, find in TOP.items():
        path = find(top.get(member), member in top)
        if path is not None:
            given = top.get(member)
            given = given if isinstance(given, str) else None
            return line("model", 4, "NotCityJson", member=member, path=path_text((member, *path)), given=given)
    return None


def wrong_transform(value, there):
    if not isinstance(value, dict):
        return ()
    return next(((name,) for name in ("scale", "translate") if not is_triple(value.get(name))), None)


def wrong_objects(value, there):
    if not isinstance(value, dict):
        return ()
    return next(((name,) for name in sorted(value) if not isinstance(value[name], dict)), None)


def wrong_vertices(value, there):
    if not isinstance(value, list):
        return ()
    return next(((at,) for at, item in enumerate(value) if not is_triple(item)), None)


# what is wrong with each member: a path from it, or None where nothing is
TOP = {
    "type": lambda value, there: None if value == "CityJSON" else (),
    "version": lambda value, there: None if value == "2.0" else (),
    "transform": wrong_transform,
    "CityObjects": wrong_objects,
    "vertices": wrong_vertices,
    "extensions": lambda value, there: None if not there or value == {} else (),
}


# ---- an object by itself: of a model or of a put


def tree_faults(obj, count):
    """The faults 5 to 8 of an object whose positions name so many vertices, each with its details."""
    kind = obj.get("type")
    if not isinstance(kind, str) or kind not in FAMILY_OF:
        yield 5, "UnknownType", {"given": text_or_none(kind)}
    found = unsupported(obj)
    if found:
        yield 6, "Unsupported", found
    found = bad_geometry(obj)
    if found:
        yield 7, "BadGeometry", found
    else:
        found = bad_vertex(obj, count)
        if found:
            yield 8, "BadVertex", found


def text_or_none(value):
    return value if isinstance(value, str) else None


def unsupported(obj):
    address = obj.get("address")
    if any(isinstance(item, dict) and "location" in item for item in (address if isinstance(address, list) else [address])):
        return {"name": "location"}
    geometry = obj.get("geometry")
    for number, item in enumerate(geometry if isinstance(geometry, list) else []):
        kind = item.get("type") if isinstance(item, dict) else None
        if isinstance(kind, str) and kind in UNSUPPORTED:
            return {"name": kind, "geometry": number}
    return None


def bad_geometry(obj):
    geometry = obj.get("geometry", [])
    if not isinstance(geometry, list):
        return {"part": "geometry"}
    for number, item in enumerate(geometry):
        part = bad_part(item)
        if part:
            given = text_or_none(item.get("type")) if part == "type" else None
            return {"geometry": number, "part": part, "given": given}
    return None


def bad_part(item):
    if not isinstance(item, dict):
        return "geometry"
    if not isinstance(item.get("lod"), str):
        return "lod"
    if not isinstance(item.get("type"), str) or item["type"] not in NESTING:
        return "type"
    return None if is_nested(item.get("boundaries"), NESTING[item["type"]]) else "boundaries"


def surfaces_of(obj):
    """Each surface of an object with its place, in the order of the walk."""
    for place, shell in shells_of(obj):
        for surface, rings in enumerate(shell):
            yield {**place, "surface": surface}, rings


def shells_of(obj):
    """Each shell of an object with its place. The surfaces of a geometry without shells come as one."""
    for number, item in enumerate(obj.get("geometry", [])):
        place, depth = {"geometry": number, "lod": item["lod"]}, NESTING[item["type"]]
        if depth == 3:
            yield place, item["boundaries"]
        for solid, shells in enumerate(item["boundaries"] if depth == 5 else [item["boundaries"]] if depth == 4 else []):
            inside = {**place, "solid": solid} if depth == 5 else place
            for shell, surfaces in enumerate(shells):
                yield {**inside, "shell": shell}, surfaces


def bad_vertex(obj, count):
    for place, rings in surfaces_of(obj):
        for ring, positions in enumerate(rings):
            for item, position in enumerate(positions):
                if not 0 <= position < count:
                    return {**place, "ring": ring, "item": item, "position": position, "vertices": count}
    return None


# ---- what is built of objects: rings, shells and relations


def bad_ring(obj, vertices):
    for place, rings in surfaces_of(obj):
        if not rings:
            return {**place, "rule": "no ring"}
        for ring, positions in enumerate(rings):
            if len(positions) < 3:
                return {**place, "ring": ring, "rule": "short ring", "points": len(positions)}
            equal = equal_neighbours(positions, vertices)
            if equal:
                return {**place, "ring": ring, **equal}
    return None


def equal_neighbours(positions, vertices):
    """The rule and the first point of a ring that is equal to the next."""
    for one, other in neighbours(positions):
        if vertices[one] == vertices[other]:
            return {"rule": "equal neighbours", "point": vertices[one]}
    return None


def neighbours(ring):
    return zip(ring, ring[1:] + ring[:1])


def open_shell(obj, vertices):
    for place, shell in shells_of(obj):
        if "shell" not in place:
            continue
        edges = [
            (tuple(vertices[one]), tuple(vertices[other]), surface, ring)
            for surface, rings in enumerate(shell)
            for ring, positions in enumerate(rings)
            for one, other in neighbours(positions)
        ]
        counts = Counter(edge[:2] for edge in edges)
        opened = [edge for edge in edges if counts[edge[:2]] != 1 or counts[edge[1::-1]] != 1]
        if opened:
            told = [
                {"from": list(one), "ring": ring, "surface": surface, "to": list(other)}
                for one, other, surface, ring in opened[:MOST_EDGES]
            ]
            return {**place, "edges": told, "more": len(opened) - MOST_EDGES if len(opened) > MOST_EDGES else None}
    return None


def ids_of(obj, kind):
    """The ids of a list; none where it isn't an array of texts."""
    ids = obj.get(kind, [])
    return ids if are_texts(ids) else []


def relations_fault(obj, name, built, lists, sets):
    """The first rule on relations that an object doesn't meet. One that can't be built has only lists."""
    for kind in ("parents", "children"):
        if not are_texts(obj.get(kind, [])):
            return {"rule": "no list of ids", "list": kind}
    if name not in built:
        return None
    parents, children = lists[name]
    for kind, ids in (("parents", parents), ("children", children)):
        again = first_again(ids)
        if again is not None:
            return {"rule": "repeated", "list": kind, "other": again}
    family = FAMILY_OF[obj["type"]]
    if obj["type"] == family and parents:
        return {"rule": "first-level with parents", "list": "parents", "other": parents[0]}
    if obj["type"] != family and not parents:
        return {"rule": "no parents", "list": "parents"}
    for kind, ids in (("parents", parents), ("children", children)):
        for other in ids:
            rule = wrong_relative(name, other, kind, built, sets)
            if rule:
                return {"rule": rule, "list": kind, "other": other}
    return None


def first_again(ids):
    seen = set()
    for each in ids:
        if each in seen:
            return each
        seen.add(each)
    return None


def wrong_relative(name, other, kind, built, sets):
    """The rule that a parent or a child of an object doesn't meet, or None."""
    is_parent = kind == "parents"
    if is_parent and other == name:
        return "itself"
    if other not in built:
        return "missing"
    if name not in sets[other][1 if is_parent else 0]:
        return "not mutual"
    if is_parent and FAMILY_OF[built[other]["type"]] != FAMILY_OF[built[name]["type"]]:
        return "other family"
    return None
