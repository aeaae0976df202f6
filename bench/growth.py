#!/usr/bin/env python3
"""Measures how processor time grows with the text: each kind of text at a size, and at four times the size.

    python3 bench/growth.py PROGRAM [--only KIND] [--times N] [--counted]

PROGRAM is a built cityed. Prints for each kind both lengths and times, less the time of an empty model, and how
many times the second is the first. Four times the text should take at most six times the time. With --counted, valgrind
counts instructions instead (some fifty times slower); they may take five times, and if a kind takes more, the status is
1. With --times the texts are so many times as long. Kinds with many faults are given to `--check`, which tells each of
them.
"""

import argparse
import json
import os
import random
import re
import resource
import subprocess
import sys
import tempfile

MOST_INSTRUCTIONS = 5
EMPTY = {"type": "CityJSON", "version": "2.0", "transform": {"scale": [1, 1, 1], "translate": [0, 0, 0]}}


def model(objects, vertices=()):
    return {**EMPTY, "CityObjects": objects, "vertices": list(vertices)}


def shuffled(count):
    names = [f"part-{number:08}" for number in range(count)]
    random.Random(count).shuffle(names)
    return names


def unordered_children(count):
    names = shuffled(count)
    parts = {name: {"type": "BuildingPart", "parents": ["building"]} for name in names}
    return model({"building": {"type": "Building", "children": names}, **parts}), []


def unordered_parents(count):
    names = shuffled(count)
    buildings = {name: {"type": "Building", "children": ["part"]} for name in names}
    return model({"part": {"type": "BuildingPart", "parents": names}, **buildings}), []


def repeated_child(count):
    """Refused: the last child is the first again."""
    document, _ = unordered_children(count)
    children = document["CityObjects"]["building"]["children"]
    children.append(children[0])
    return document, []


def one_solid(count):
    """A block whose roof and floor have many points, and a wall between each two of them."""
    roof, floor = range(count), range(count, 2 * count)
    walls = [[[floor[n], floor[(n + 1) % count], roof[(n + 1) % count], roof[n]]] for n in range(count)]
    points = [[n % 1000, n // 1000, height] for height in (1, 0) for n in range(count)]
    shell = [[list(roof)], [list(reversed(floor))], *walls]
    return model({"a": solid([shell])}, points), []


def solid(shells):
    return {"type": "Building", "geometry": [{"type": "Solid", "lod": "1", "boundaries": shells}]}


def open_solid(count):
    """Refused: the last wall is missing."""
    document, _ = one_solid(count)
    document["CityObjects"]["a"]["geometry"][0]["boundaries"][0].pop()
    return document, []


def one_ring(count):
    points = [[n % 1000, n // 1000, 0] for n in range(count)]
    surface = {"type": "MultiSurface", "lod": "1", "boundaries": [[list(range(count))]]}
    return model({"a": {"type": "Road", "geometry": [surface]}}, points), []


def many_objects(count):
    return model({f"object-{number:08}": {"type": "Road"} for number in range(count)}), []


def many_members(count):
    return model({"a": {"type": "Road", "attributes": {name: 1 for name in shuffled(count)}}}), []


def inner_members(count):
    """Members of an object inside an attribute, the last name first."""
    return model({"a": {"type": "Road", "attributes": {"k": {name: 1 for name in sorted(shuffled(count), reverse=True)}}}}), []


def many_scripts(count):
    return model({}), [script([{"put": f"r{n}", "object": {"type": "Road"}}]) for n in range(count)]


def script(commands):
    return {"name": "s", "commands": [*commands, "commit"]}


def attached_children(count):
    """One script of so many parts that are attached to one building."""
    commands = []
    for name in shuffled(count):
        commands += [{"put": name, "object": {"type": "BuildingPart"}}, {"attach": name, "parent": "building"}]
    return model({"building": {"type": "Building"}}), [script(commands)]


def deleted_children(count):
    """One script that deletes so many parts of one building, one after the other."""
    document, _ = unordered_children(count)
    parts = document["CityObjects"]["building"]["children"]
    return document, [script([{"delete": part} for part in parts])]


def deep_edits(count):
    """Scripts that detach and attach parts of one building which has many."""
    document, _ = unordered_children(16 * count)
    parts = document["CityObjects"]["building"]["children"][::16]
    document["CityObjects"]["other"] = {"type": "Building"}
    scripts = [
        script([{"attach": part, "parent": "other"}, {"detach": part, "parent": "building"}]) for part in parts
    ]
    return document, scripts


def many_parents(count):
    """Scripts that detach and attach one part which has many parents."""
    document, _ = unordered_parents(16 * count)
    buildings = document["CityObjects"]["part"]["parents"][::16]
    scripts = [
        script([{"detach": "part", "parent": building}, {"attach": "part", "parent": building}]) for building in buildings
    ]
    return document, scripts


def long_body(count):
    """Scripts that detach and attach parts of one building which has many attributes."""
    document, scripts = deep_edits(count)
    document["CityObjects"]["building"]["attributes"] = {name: 1 for name in shuffled(16 * count)}
    return document, scripts


# How the hasher that the program's maps have by default makes a state of a number, and the state that it begins with.
WORD, FIRST_STATE, MULTIPLIER = (1 << 64) - 1, 0x243F6A8885A308D3, 0x9E3779B97F4A7C15 ^ 16
# The same where it has taken in the seed of zero, which the library has where nobody draws one.
FIXED_STATE = FIRST_STATE * MULTIPLIER & WORD ^ FIRST_STATE * MULTIPLIER >> 64


def colliding_triangles(count, state):
    """A surface of triangles, and their corners, which would all have one hash if their hasher began with the state."""
    points = []
    for number in range(3 * count):
        product = (state ^ number) * MULTIPLIER
        second = product & WORD ^ product >> 64 ^ 0x1234
        points.append([number, second - (second >> 63 << 64), 7])
    return [[[3 * n, 3 * n + 1, 3 * n + 2]] for n in range(count)], points


def colliding_points(count, state=FIRST_STATE):
    surfaces, points = colliding_triangles(count, state)
    surface = {"type": "MultiSurface", "lod": "1", "boundaries": surfaces}
    return model({"a": {"type": "Road", "geometry": [surface]}}, points), []


def colliding_replies(count, state=FIRST_STATE):
    """A script that reads an object with such points again and again."""
    document, _ = colliding_points(count, state)
    return document, [script([{"read": "a"}] * 20)]


def many_sets(count):
    """Scripts that each set one of very many attributes of one object."""
    names = [f"a{number:06}" for number in range(16 * count)]
    document = model({"a": {"type": "Road", "attributes": dict.fromkeys(names, 1)}})
    return document, [script([{"set": "a", "attributes": {names[7_919 * n % len(names)]: n}}]) for n in range(count)]


def scripts_of(commands, most=1_000):
    """The commands in order, so many a script."""
    return [script(commands[at : at + most]) for at in range(0, len(commands), most)]


def attributes_of(count):
    """An object of so many attributes, and their names in no order."""
    names = shuffled(count)
    return model({"a": {"type": "Road", "attributes": dict.fromkeys(sorted(names), 1)}}), names


def on_attributes(command, value=None, absent=False):
    """One command that names each attribute of an object, or as many that it hasn't."""

    def kind(count):
        document, names = attributes_of(count)
        named = [f"x{name}" for name in names] if absent else names
        return document, [script([{command: "a", "attributes": named if value is None else dict.fromkeys(named, value)}])]

    return kind


set_there, set_new = on_attributes("set", 2), on_attributes("set", 2, absent=True)
unset_there, unset_absent = on_attributes("unset"), on_attributes("unset", absent=True)
expected = on_attributes("expect", 1)


def sets_of(names):
    return [{"set": "a", "attributes": {name: 2}} for name in names]


def single_sets(count):
    """Each attribute of an object is set by a command of its own."""
    document, names = attributes_of(count)
    return document, scripts_of(sets_of(names))


def rising_sets(count):
    document, names = attributes_of(count)
    return document, scripts_of(sets_of(f"x{name}" for name in sorted(names)))


def falling_sets(count):
    document, names = attributes_of(count)
    return document, scripts_of(sets_of(f"x{name}" for name in sorted(names, reverse=True)))


def set_and_unset(count):
    document, names = attributes_of(count)
    pairs = [({"set": "a", "attributes": {f"x{name}": 2}}, {"unset": "a", "attributes": [name]}) for name in names]
    return document, scripts_of([command for pair in pairs for command in pair])


def sets_under_marks(count):
    """After each ten sets a script goes back over half of them."""
    document, names = attributes_of(count)
    sets = sets_of(names)
    commands = []
    for at in range(0, count, 10):
        commands += [*sets[at : at + 5], {"mark": "m"}, *sets[at + 5 : at + 10], {"back": "m"}]
    return document, scripts_of(commands, 960)


def on_parts(commands_of):
    """Commands on each part of a building, the parts in no order."""

    def kind(count):
        document, _ = unordered_children(count)
        parts = document["CityObjects"]["building"]["children"]
        document["CityObjects"]["other"] = {"type": "Building"}
        return document, scripts_of([command for part in parts for command in commands_of(part)])

    return kind


moved_parts = on_parts(lambda it: [{"attach": it, "parent": "other"}, {"detach": it, "parent": "building"}])
returned_parts = on_parts(
    lambda it: [
        {"attach": it, "parent": "other"},
        {"detach": it, "parent": "building"},
        {"attach": it, "parent": "building"},
        {"detach": it, "parent": "other"},
    ]
)
deleted_parts = on_parts(lambda it: [{"delete": it}])
sets_beside_parts = on_parts(lambda it: [{"set": "building", "attributes": {it: 1}}])


def attached_parts(count):
    """Parts that are put, and attached to one building."""
    puts = [{"put": name, "object": {"type": "BuildingPart"}} for name in shuffled(count)]
    commands = [command for put in puts for command in (put, {"attach": put["put"], "parent": "building"})]
    return model({"building": {"type": "Building"}}), scripts_of(commands)


def unlisted_children(count):
    """Each part has a parent that doesn't list it."""
    parts = {name: {"type": "BuildingPart", "parents": ["building"]} for name in shuffled(count)}
    return model({"building": {"type": "Building"}, **parts}), []


def half_listed_children(count):
    """A building that lists each second of its parts, and as many ids that aren't there."""
    document, _ = unordered_children(count)
    children = document["CityObjects"]["building"]["children"]
    children[::2] = [f"no-{name}" for name in children[::2]]
    return document, []


def unknown_types(count):
    return model({name: {"type": "Bulding"} for name in shuffled(count)}), []


def repeated_ids(count):
    """A list that has each id twice."""
    document, _ = unordered_children(count)
    document["CityObjects"]["building"]["children"] *= 2
    return document, []


def open_triangles(count):
    """A shell whose edges are all open."""
    points = [[number, at, 0] for number in range(count) for at in (0, 1, 2)]
    return model({"a": solid([[[[3 * n, 3 * n + 1, 3 * n + 2]] for n in range(count)]])}, points), []


def open_shells(count):
    """Objects that are blocks without a floor."""
    points = [[x, y, z] for x in (0, 1) for y in (0, 1) for z in (0, 1)]
    sides = [[[0, 1, 3, 2]], [[4, 6, 7, 5]], [[0, 4, 5, 1]], [[2, 3, 7, 6]], [[1, 5, 7, 3]]]
    return model({name: solid([sides]) for name in shuffled(count)}, points), []


def misspelt_commands(count):
    return model({}), [script([{"raed": name} for name in shuffled(1_000)]) for _ in range(count)]


def no_scripts(count):
    """Items that aren't scripts, far too many."""
    return model({}), [0] * count


KINDS = {
    unordered_children: 16_000,
    unordered_parents: 16_000,
    repeated_child: 16_000,
    one_solid: 50_000,
    open_solid: 50_000,
    one_ring: 250_000,
    many_objects: 50_000,
    many_members: 50_000,
    inner_members: 50_000,
    many_scripts: 1_000,
    attached_children: 127,
    deleted_children: 255,
    deep_edits: 200,
    many_parents: 200,
    long_body: 200,
    colliding_points: 16_000,
    colliding_replies: 2_000,
    many_sets: 320,
}

# long lists of attributes and of ids
LONG = {
    "set_there": (set_there, 30_000),
    "set_new": (set_new, 30_000),
    "unset_there": (unset_there, 30_000),
    "unset_absent": (unset_absent, 30_000),
    "expected": (expected, 30_000),
    "single_sets": (single_sets, 15_000),
    "rising_sets": (rising_sets, 15_000),
    "falling_sets": (falling_sets, 15_000),
    "set_and_unset": (set_and_unset, 10_000),
    "sets_under_marks": (sets_under_marks, 15_000),
    "moved_parts": (moved_parts, 8_000),
    "returned_parts": (returned_parts, 5_000),
    "deleted_parts": (deleted_parts, 12_000),
    "attached_parts": (attached_parts, 8_000),
    "sets_beside_parts": (sets_beside_parts, 10_000),
}


# what --check tells is long, or is found among many others
CHECKED = {
    unlisted_children: 15_000,
    half_listed_children: 15_000,
    unknown_types: 15_000,
    repeated_ids: 15_000,
    open_triangles: 25_000,
    open_shells: 2_500,
    misspelt_commands: 60,
    no_scripts: 50_000,
}


def kinds():
    """The name of each kind, the kind, its size, and the options of its runs."""
    yield from ((kind.__name__, kind, count, []) for kind, count in KINDS.items())
    yield from ((name, kind, count, []) for name, (kind, count) in LONG.items())
    yield ("single_sets --decimals", single_sets, 15_000, ["--decimals"])
    yield from ((kind.__name__, kind, count, ["--check"]) for kind, count in CHECKED.items())


def written(document, scripts, folder):
    """The files of a model and of scripts, and their length."""
    names = [os.path.join(folder, name) for name in ("model", "scripts")]
    for name, tree in zip(names, (document, scripts)):
        with open(name, "w", encoding="utf-8") as file:
            json.dump(tree, file, separators=(",", ":"))
    return names, sum(map(os.path.getsize, names))


def processor_time(words):
    """The processor seconds of a run, the least of three."""

    def once():
        before = resource.getrusage(resource.RUSAGE_CHILDREN)
        subprocess.run(words, stdout=subprocess.DEVNULL, stderr=subprocess.DEVNULL, check=False)
        after = resource.getrusage(resource.RUSAGE_CHILDREN)
        return after.ru_utime + after.ru_stime - before.ru_utime - before.ru_stime

    return min(once() for _ in range(3))


def instructions(words):
    """The instructions of a run, in thousands of millions, by valgrind's count."""
    counted = ["valgrind", "--tool=callgrind", "--callgrind-out-file=/dev/null", *words]
    ran = subprocess.run(counted, stdout=subprocess.DEVNULL, stderr=subprocess.PIPE, check=False)
    return int(re.search(rb"Collected : (\d+)", ran.stderr)[1]) / 1e9


def main():
    asked = argparse.ArgumentParser(description=__doc__, formatter_class=argparse.RawDescriptionHelpFormatter)
    asked.add_argument("program")
    asked.add_argument("--only", metavar="KIND")
    asked.add_argument("--times", type=int, default=1, metavar="N")
    asked.add_argument("--counted", action="store_true")
    asked = asked.parse_args()
    measure, unit = (instructions, "Gi") if asked.counted else (processor_time, "s")
    well = True
    with tempfile.TemporaryDirectory() as folder:

        def measured(texts, options):
            names, length = written(*texts, folder)
            return length, measure([asked.program, *options, *names])

        _, idle = measured((model({}), []), [])
        for name, kind, count, options in kinds():
            if asked.only not in (None, name):
                continue
            (short, quick), (long, slow) = (measured(kind(asked.times * size), options) for size in (count, 4 * count))
            quick, slow = max(quick - idle, 0.001), max(slow - idle, 0.001)
            told = f"{short:,} bytes {quick:.3f} {unit}, {long:,} bytes {slow:.3f} {unit}, {slow / quick:.1f} times"
            well = well and (not asked.counted or slow <= MOST_INSTRUCTIONS * quick)
            print(f"{name}: {told}", flush=True)
    return 0 if well else 1


if __name__ == "__main__":
    sys.exit(main())
