"""Random JSON, models and scripts whose numbers have any form, with repeated names and names that are the tag `#`."""

import json

import random_runs
from number_texts import Members, Number, members, replaced, text_of, value_of, whole
from smallest_changes import changes_of

NUMBERS = (
    "0 -0 1 -1 7 1.0 -1.0 0.250 0.1 -0.0 1e3 1E+2 1e-3 2.5E-3 0e0 0E-0 -0e+00 1e999 -1e999 1e-400 48.0 1931 "
    "0.30000000000000004 2.930000066757202 -5.300000190734863 9223372036854775807 9223372036854775808 "
    "-9223372036854775808 -9223372036854775809 18446744073709551615 18446744073709551616 123456789012345678901234567890"
).split()
TEXTS = ["", "#", "0.25", "1e3", "-0", "1", "a", "\u00e9\U0001f600", "\n\t\"\\/", "\u0000\u001f\u007f"]
TEXTS += ['{"#":"0.25"}', "\u2028"]
NAMES = ["#", "#", "#", "##", "", "a", "b", "transform", "scale", "translate", "\u00e9", "\n", "0.25", "z\U0001f600"]
ALIKE = ["[0.25]", '"0.25"', '["0.25"]', '[["0.25"]]', "{}", "[]", '"1"', '"x"', '{"#":"0.25"}', '{"#":0.25}']
ALIKE += ["null", "true", "12"]
FRAME = members(scale=[whole(1)] * 3, translate=[whole(0)] * 3)
READ = {
    "top": ("CityObjects", "extensions", "transform", "type", "version", "vertices"),
    "transform": ("scale", "translate"),
    "object": ("address", "children", "geometry", "parents", "type"),
    "geometry": ("boundaries", "lod", "type"),
}


def number(choose):
    if choose.random() < 0.6:
        return Number(choose.choice(NUMBERS))
    digits = lambda: "".join(choose.choices("0123456789", k=choose.choice([1, 1, 2, 5, 17, 18, 19, 20])))
    text = choose.choice(["", "", "-"]) + (digits().lstrip("0") or "0")
    text += "." + digits() if choose.random() < 0.6 else ""
    text += choose.choice("eE") + choose.choice(["", "+", "-"]) + digits()[:2] if choose.random() < 0.3 else ""
    return Number(text)


def value(choose, depth=5):
    """A value, of few parts, in which what looks like an encoded number comes often."""
    kind = choose.random()
    if kind < 0.4 or depth == 0:
        return number(choose)
    if kind < 0.5:
        return choose.choice(TEXTS)
    if kind < 0.55:
        return choose.choice([None, True, False])
    if kind < 0.7:
        return Members((("#", alike(choose)),) * choose.choice([1, 1, 1, 2]))
    if kind < 0.75:
        return Members((("transform", FRAME),))
    if kind < 0.85:
        return [value(choose, depth - 1) for _ in range(choose.randint(0, 3))]
    return Members(tuple((choose.choice(NAMES), value(choose, depth - 1)) for _ in range(choose.randint(0, 4))))


def alike(choose):
    """What may stand under the tag."""
    return value_of(choose.choice(ALIKE).encode("utf-8"))


def kept(choose, place):
    """Members that are kept at a place, repeated ones among them."""
    names = [choose.choice(NAMES + ["attributes", "metadata"]) for _ in range(choose.randint(0, 3))]
    return tuple((name, value(choose, 3)) for name in names if name not in READ[place])


def shuffled(choose, place, *pairs):
    """An object with these members and kept ones in any order; some of them came before, with another value."""
    made = list(pairs) + list(kept(choose, place))
    choose.shuffle(made)
    earlier = [(name, value(choose, 3)) for name, _ in made if choose.random() < 0.1]
    return Members(tuple(earlier + made))


def vertices_of(choose):
    """The corners of a cube and other points, some of them twice, in any order; and where each corner stands."""
    size = choose.choice([1, 3000, 2**62])
    corners = [tuple(size * n for n in point) for point in random_runs.POINTS]
    points = corners + choose.sample(corners, choose.randint(0, 3))
    points += [(9, -9, choose.randint(2, 5))] * choose.randint(0, 2)
    choose.shuffle(points)
    places = [[at for at, point in enumerate(points) if point == corner] for corner in corners]
    return [[whole(n) for n in point] for point in points], places


def geometry(choose, places):
    kind, boundaries = random_runs.shape(choose, random_runs.WHOLE)
    placed = replaced(boundaries, lambda corner: whole(choose.choice(places[corner])))
    pairs = (("type", kind), ("lod", choose.choice(["0", "1.2", "2.2"])), ("boundaries", placed))
    return shuffled(choose, "geometry", *pairs)


def body(choose, kind, places, *relations):
    pairs = [("type", kind), *relations]
    if choose.random() < 0.7:
        pairs.append(("geometry", [geometry(choose, places) for _ in range(choose.randint(0, 2))]))
    if choose.random() < 0.5:
        pairs.append(("attributes", attributes(choose, None) if choose.random() < 0.8 else value(choose, 3)))
    return shuffled(choose, "object", *pairs)


IDS = ["#", "", "transform", "a", "b", "c", "\u00e9", "0.25", "z\"", "scale"]
SINGLE = ["Road", "LandUse", "Bridge", "WaterBody"]


def model(choose):
    vertices, places = vertices_of(choose)
    ids = choose.sample(IDS, choose.randint(0, 6))
    count = choose.randint(0, len(ids) // 2)
    buildings, parts, others = ids[:count], ids[count : 2 * count], ids[2 * count :]
    objects = []
    for building, part in zip(buildings, parts):
        upper = [("children", [part]), *empty(choose, "parents")]
        lower = [("parents", [building]), *empty(choose, "children")]
        objects.append((building, body(choose, "Building", places, *upper)))
        objects.append((part, body(choose, "BuildingPart", places, *lower)))
    objects += [(name, body(choose, choose.choice(SINGLE), places, *empty(choose, "parents"))) for name in others]
    choose.shuffle(objects)
    earlier = [(name, value(choose, 2)) for name, _ in objects if choose.random() < 0.1]
    triple = lambda: [number(choose) for _ in range(3)]
    transform = shuffled(choose, "transform", ("scale", triple()), ("translate", triple()))
    return shuffled(
        choose,
        "top",
        ("type", "CityJSON"),
        ("version", "2.0"),
        ("transform", transform),
        ("CityObjects", Members(tuple(earlier + objects))),
        ("vertices", vertices),
        *([("extensions", Members(()))] if choose.random() < 0.2 else []),
    )


def empty(choose, name):
    return [(name, [])] if choose.random() < 0.3 else []


def edit_scripts(choose, city):
    """Scripts of all commands but those of relations; an object keeps its type, and a new one is of the first level."""
    objects = {name: thing for name, thing in city.get("CityObjects").pairs if isinstance(thing, Members)}
    types = {name: thing.get("type") for name, thing in objects.items() if isinstance(thing.get("type"), str)}
    for name in IDS:
        types.setdefault(name, choose.choice(SINGLE))
    there = {name: thing.get("attributes") for name, thing in objects.items()}
    return [script(choose, at, types, there) for at in range(choose.randint(1, 6))]


def attributes(choose, there):
    """Attributes of names that may recur, or some that an object has, each with its value or with one near it."""
    if not isinstance(there, Members) or choose.random() < 0.3:
        return Members(tuple((choose.choice(NAMES), value(choose, 3)) for _ in range(choose.choice([0, 1, 1, 2, 3]))))
    chosen = [pair for pair in there.pairs if choose.random() < 0.5]
    if chosen and choose.random() < 0.3:
        name, old = chosen.pop()
        chosen.append((name, choose.choice([old, *changes_of(old)])))
    choose.shuffle(chosen)
    return Members(tuple(chosen))


def of_attributes(choose, name, there):
    """A set, an unset or an expect of an object."""
    named = attributes(choose, there)
    verb = choose.choice(["set", "set", "unset", "expect", "expect"])
    if verb == "unset":
        names = [each for each, _ in named.pairs] + choose.choices(NAMES, k=choose.randint(0, 2))
        return members(unset=name, attributes=names)
    return Members(((verb, name), ("attributes", named)))


def script(choose, at, types, there):
    vertices, places = vertices_of(choose)
    commands, marks = [], []
    for _ in range(choose.randint(0, 6)):
        kind, name = choose.random(), choose.choice(IDS)
        if kind < 0.2:
            commands.append(members(put=name, object=body(choose, types[name], places)))
        elif kind < 0.25:
            commands.append(members(add=name, object=body(choose, types[name], places)))
        elif kind < 0.55:
            name = choose.choice(list(there) or IDS) if choose.random() < 0.9 else name
            commands.append(of_attributes(choose, name, there.get(name)))
        elif kind < 0.6:
            name = choose.choice(list(there) or IDS)
            shapes = [geometry(choose, places) for _ in range(choose.randint(0, 2))]
            commands.append(members(reshape=name, geometry=shapes))
        elif kind < 0.75:
            commands.append(members(read=name))
        elif kind < 0.87 or not marks:
            marks.append(choose.choice(["m", "n", "#"]))
            commands.append(members(mark=marks[-1]))
        else:
            back = choose.choice(marks)
            while marks[-1] != back:
                marks.pop()
            commands.append(members(back=back))
    commands.append(choose.choice(["commit", "commit", "abort"]))
    pairs = [("name", choose.choice(TEXTS) + str(at)), ("vertices", vertices), ("commands", commands)]
    choose.shuffle(pairs)
    return Members(tuple(pairs))


def spelt_text(choose, made):
    """A text of the value: letters may be escaped, and spaces stand between the parts."""
    often = choose.choice([0, 0, 0.3])
    space = lambda: choose.choice(" \t\n\r") if choose.random() < often else ""

    def spelt(text):
        if choose.random() >= often:
            return json.dumps(text, ensure_ascii=choose.random() < 0.5)
        units = text.encode("utf-16-be")
        return '"' + "".join(f"\\u{units[at]:02x}{units[at + 1]:02X}" for at in range(0, len(units), 2)) + '"'

    return space() + text_of(made, spelt, space) + space()
