#!/usr/bin/env python3
"""Splits a faulty CityJSON model into a lawful rest and what is to be mended, which scripts then put back.

usage: mend.py [--program CITYED] MODEL REST SCRIPTS     splits MODEL
       mend.py [--program CITYED] --scripts SCRIPTS      turns mended objects into scripts

`cityed --check` says which objects of MODEL have faults. Each object goes to one of three files, word for word:

- REST: the model without faulty objects, and without relations that only one side has. It is lawful.
- SCRIPTS: a script for each object with fault 9 or 11 (a ring, an open shell), and for each part without a parent in
  REST. It adds the object with its own vertices, and attaches it; its name says what is wrong. Mend it there.
- OBJECTS, which is SCRIPTS with .objects before its end: objects with faults 5 to 8, which no script can hold, each
  with its faults and the vertices that it names; and the sides of relations that were dropped. Mend the objects there;
  with --scripts those without such faults then move to SCRIPTS, and the others are told.

Run SCRIPTS over REST:  cityed --decimals -o NEW REST SCRIPTS. A script that is refused leaves its object out.
All three files are read again and compared with MODEL: the status is 1 if anything is missing or changed.
"""
import argparse
import json
import subprocess
import sys
from collections import Counter, defaultdict
from pathlib import Path

CITYED = Path(__file__).resolve().parents[1] / "crates/cityed/out/cityed"
OPPOSITE = {"parents": "children", "children": "parents"}
UNHELD = {5, 6, 7, 8}  # faults that no script may have
MOST = 4096  # scripts of a text


class Digits(str):
    """A number as it is written."""


def read(text):
    return json.loads(text, parse_int=Digits, parse_float=Digits)


def dump(value):
    """Compact JSON, numbers as they were written."""
    if isinstance(value, Digits):
        return str(value)
    if isinstance(value, dict):
        return "{%s}" % ",".join("%s:%s" % (dump(name), dump(it)) for name, it in value.items())
    if isinstance(value, list):
        return "[%s]" % ",".join(map(dump, value))
    return json.dumps(value, ensure_ascii=False)


def lines(items):
    """An array with an item a line."""
    return "[\n%s\n]" % ",\n".join(map(dump, items)) if items else "[]"


def check(program, model):
    """The faults of a model."""
    words = [program, "--check", "--decimals", "/dev/stdin"]
    try:
        done = subprocess.run(words, input=dump(model).encode(), stdout=subprocess.PIPE, check=False)
    except OSError as error:
        sys.exit("mend.py: %s: %s" % (program, error.strerror))
    if done.returncode not in (0, 1) or (done.returncode == 1) != bool(done.stdout):
        sys.exit("mend.py: %s can't check it" % program)
    return [json.loads(line) for line in done.stdout.decode().splitlines()]


def told(fault):
    return "%d %s: %s" % (fault["number"], fault["fault"], fault["message"])


# ---- objects: their indices and their relations


def placed(object, number):
    """An object with other indices: `number` gives the new one of each."""
    def renumbered(item):
        return [renumbered(it) for it in item] if isinstance(item, list) else number(item)

    def shape(it):
        has = isinstance(it, dict) and isinstance(it.get("boundaries"), list)
        return {**it, "boundaries": renumbered(it["boundaries"])} if has else it
    geometry = object.get("geometry") if isinstance(object, dict) else None
    return {**object, "geometry": list(map(shape, geometry))} if isinstance(geometry, list) else object


def named(object, vertices):
    """The vertices that an object names, by index; `vertices` has those of its file by index."""
    found = {}

    def note(index):
        if isinstance(index, Digits) and index in vertices:
            found[str(index)] = vertices[index]
        return index
    placed(object, note)
    return found


def ids(object, name):
    """The list of relatives, or none if it isn't a list of ids."""
    found = object.get(name, []) if isinstance(object, dict) else []
    is_list = isinstance(found, list) and all(type(it) is str for it in found)
    return found if is_list else []


def sides(objects):
    """Each side of a relation: whose list of which name has whom, and the relation as child and parent."""
    for id, it in objects.items():
        for name in OPPOSITE:
            for other in ids(it, name):
                yield id, name, other, ((id, other) if name == "parents" else (other, id))


def body(object):
    """An object without its relations."""
    return {name: it for name, it in object.items() if name not in OPPOSITE} if isinstance(object, dict) else object


# ---- scripts


def script(id, faults, object, vertices, pairs):
    """The script that adds an object and attaches it."""
    numbers = {}

    def number(index):
        return Digits(numbers.setdefault(index, len(numbers))) if index in vertices else index
    added = placed(body(object), number)
    attaches = [{"attach": child, "parent": parent} for child, parent in pairs]
    return {"name": "%s: %s" % (id, "; ".join(faults)), "vertices": [vertices[n] for n in numbers],
            "commands": [{"add": id, "object": added}, *attaches, "commit"]}


def added(it):
    return {command["add"]: command["object"] for command in it["commands"] if "add" in command}


def attached(it):
    return [(command["attach"], command["parent"]) for command in it["commands"] if "attach" in command]


def joined(first, second):
    """Two scripts as one: each needs what the other adds."""
    start = len(first["vertices"])
    later = [{**it, "object": placed(it["object"], lambda n: Digits(int(n) + start))} if "add" in it else it
             for it in second["commands"]]
    commands = first["commands"][:-1] + later[:-1]
    commands.sort(key=lambda it: "add" not in it)
    return {"name": "; ".join((first["name"], second["name"])), "vertices": first["vertices"] + second["vertices"],
            "commands": [*commands, "commit"]}


def in_order(scripts):
    """Scripts, each behind those that add what it attaches to."""
    by_id = {id: k for k, it in enumerate(scripts) for id in added(it)}
    left, done = dict(enumerate(scripts)), []
    needs = {k: {by_id[id] for pair in attached(it) for id in pair if by_id.get(id, k) != k} for k, it in left.items()}
    while left:
        ready = [k for k in left if not needs[k] & left.keys()]
        for k in ready:
            done.append(left.pop(k))
        if left and not ready:  # some go round: one round becomes one script
            path = [next(iter(left))]
            while (to := min(needs[path[-1]] & left.keys())) not in path:
                path.append(to)
            into, *others = path[path.index(to):]
            for k in others:
                left[into], needs[into] = joined(left[into], left.pop(k)), needs[into] | needs[k]
            needs[into] -= {into, *others}
            needs = {k: {into if it in others else it for it in of} - {k} for k, of in needs.items()}
    return done


# ---- splitting


class Split:
    """A model and where its objects go: `broken` and `faulty` have the faults of those for OBJECTS and for SCRIPTS."""

    def __init__(self, program, model):
        self.program, self.model, self.objects = program, model, model.get("CityObjects", {})
        self.vertices = {str(n): it for n, it in enumerate(model.get("vertices", []))}
        self.broken, self.faulty, self.first, self.strange = defaultdict(list), defaultdict(list), set(), set()
        faults = check(program, model)
        if faults and faults[0]["number"] < 5:
            sys.exit("mend.py: nothing is split: %s" % told(faults[0]))
        unheld = {it["id"] for it in faults if it["number"] in UNHELD}
        for it in faults:
            if it["number"] != 10:
                (self.broken if it["id"] in unheld else self.faulty)[it["id"]].append(told(it))
        self.claims = {(id, name, other) for id, name, other, _ in sides(self.objects)}
        self.mutual = {pair for id, name, other, pair in sides(self.objects)
                       if id != other and (other, OPPOSITE[name], id) in self.claims}
        while faults := check(program, self.rest()):
            self.judge(faults)
        bare = {id: {"type": self.objects[id]["type"]} for id in self.faulty}
        self.parts = {it["id"] for it in check(program, {**model, "CityObjects": bare})}  # what has to have a parent

    def judge(self, faults):
        """What is told of the rest: relations that no two of such types may have, and parts without a parent."""
        for it in faults:
            types = [self.type_of(one) for one in (it["id"], it.get("other"))]
            if it.get("rule") == "no parents":
                self.faulty[it["id"]].append(told(it))
            elif it.get("rule") == "first-level with parents":
                self.first.add(types[0])
            elif it.get("rule") == "other family":
                self.strange |= {tuple(types), tuple(types[::-1])}
            else:
                sys.exit("mend.py: the rest isn't lawful: %s" % told(it))

    def type_of(self, id):
        it = self.objects.get(id)
        return dump(it.get("type")) if isinstance(it, dict) else None

    def may_be(self, pair):
        """Whether both sides have this relation, and nothing that was told forbids it."""
        types = tuple(map(self.type_of, pair))
        return pair in self.mutual and types[0] not in self.first and types not in self.strange

    def is_attached(self, pair, has_parent):
        """Whether a script attaches them: both had it so, or the child is a part, and nothing else is its parent."""
        child, parent = pair
        if child == parent or child in self.faulty and child not in self.parts:
            return False
        return self.may_be(pair) or child in self.faulty and child not in has_parent and parent in self.objects

    def rest(self):
        """The model without what is taken out."""
        stay = {id for id in self.objects if id not in self.broken and id not in self.faulty}
        kept = {}
        for id in self.objects:
            if id in stay:
                it = kept[id] = dict(self.objects[id])
                for name in OPPOSITE.keys() & it.keys():
                    pair = (lambda other: (id, other)) if name == "parents" else (lambda other: (other, id))
                    it[name] = [one for one in dict.fromkeys(ids(it, name)) if one in stay and self.may_be(pair(one))]
        return {**self.model, "CityObjects": kept}

    def relations(self, rest):
        """Attaches by the script that has them, and sides that are nowhere else."""
        pairs, dropped, seen = defaultdict(dict), [], set()
        has_parent = {pair[0] for pair in self.mutual if self.may_be(pair)}
        for id, name, other, pair in sides(self.objects):
            child, parent = pair
            again = (id, name, other) in seen
            seen.add((id, name, other))
            if id in self.broken or not again and other in ids(rest.get(id, {}), name):
                continue
            owner = child if child in self.faulty else parent
            is_there = owner in self.faulty and child in rest.keys() | self.faulty.keys()
            if is_there and not again and self.is_attached(pair, has_parent):
                pairs[owner][pair] = None
            elif again or other not in self.broken or (other, OPPOSITE[name], id) not in self.claims:
                dropped.append({"id": id, "list": name, "other": other})
        for id, it in self.objects.items():
            for name in OPPOSITE:
                if id not in self.broken and name in it and it[name] != ids(it, name):
                    dropped.append({"id": id, "list": name, "given": it[name]})
        return pairs, dropped

    def write(self, rest_path, scripts_path):
        """Writes the three files."""
        rest = self.rest()
        pairs, dropped = self.relations(rest["CityObjects"])
        scripts = [script(id, self.faulty[id], self.objects[id], named(self.objects[id], self.vertices), pairs[id])
                   for id in self.objects if id in self.faulty]
        entries = [{"id": id, "faults": self.broken[id], "object": self.objects[id],
                    "vertices": named(self.objects[id], self.vertices)} for id in self.objects if id in self.broken]
        rest_path.write_text(dump(rest) + "\n", encoding="utf-8")
        scripts_path.write_text(lines(in_order(scripts)) + "\n", encoding="utf-8")
        write_objects(objects_of(scripts_path), entries, dropped)


def objects_of(scripts_path):
    return scripts_path.with_name("%s.objects%s" % (scripts_path.stem, scripts_path.suffix))


def write_objects(path, entries, dropped):
    path.write_text('{"objects":%s,\n"relations":%s}\n' % (lines(entries), lines(dropped)), encoding="utf-8")


def whole(object, vertices):
    """An object without its relations as a text, points in place of indices that have one."""
    return dump(placed(body(object), lambda n: vertices.get(n, n) if isinstance(n, Digits) else n))


def compare(model, rest, scripts, third):
    """What of a model is lost or changed in its three parts."""
    everywhere = {str(n): it for n, it in enumerate(model["vertices"])}
    parts = [(id, whole(it, everywhere)) for id, it in rest["CityObjects"].items()]
    for one in scripts:
        own = {str(n): it for n, it in enumerate(one["vertices"])}
        parts += [(id, whole(it, own)) for id, it in added(one).items()]
    parts += [(it["id"], whole(it["object"], it["vertices"])) for it in third["objects"]]
    wanted = Counter((id, whole(it, everywhere)) for id, it in model["CityObjects"].items())
    wrong = sorted({id for id, _ in (wanted - Counter(parts)) + (Counter(parts) - wanted)})
    top = [dump({name: it for name, it in one.items() if name != "CityObjects"}) for one in (model, rest)]
    kept = {it["id"]: it["object"] for it in third["objects"]}
    pairs = {pair for *_, pair in sides({**rest["CityObjects"], **kept})}
    pairs |= {it for one in scripts for it in attached(one)}
    apart = {(it["id"], it["list"], it["other"]) for it in third["relations"] if "other" in it}
    lost = [side[0] for *side, pair in sides(model["CityObjects"]) if pair not in pairs and tuple(side) not in apart]
    return wrong + lost + ["(the top)"] * (top[0] != top[1])


def split(program, model_path, rest_path, scripts_path):
    """Splits a model, compares, and says how many objects are where."""
    try:
        model = read(model_path.read_text(encoding="utf-8-sig"))
    except ValueError as error:
        sys.exit("mend.py: nothing is split: 2 NotJson: %s" % error)
    Split(program, model).write(rest_path, scripts_path)
    files = rest_path, scripts_path, objects_of(scripts_path)
    rest, scripts, third = (read(it.read_text(encoding="utf-8")) for it in files)
    adds = sum(len(added(it)) for it in scripts)
    print("%d objects: %d in %s, %d in %s, %d in %s" % (
        len(model["CityObjects"]), len(rest["CityObjects"]), rest_path, adds, scripts_path, len(third["objects"]),
        objects_of(scripts_path)))
    if third["relations"]:
        print("%d sides of relations were dropped, and are in the last" % len(third["relations"]))
    if len(scripts) > MOST:
        print("%d scripts: run at most %d at a time" % (len(scripts), MOST))
    wrong = compare(model, rest, scripts, third)
    print("not as they were: %s" % " ".join(wrong) if wrong else "nothing is lost")
    return 1 if wrong else 0


def pairs_of(third, scripts, bad):
    """Attaches by the mended object whose script has them, and sides of relations that are nowhere else."""
    objects = {it["id"]: it["object"] for it in third["objects"]}
    pairs, dropped = defaultdict(dict), list(third["relations"])
    done = {pair for one in scripts for pair in attached(one)}
    for id, name, other, pair in sides(objects):
        owner = pair[0] if pair[0] in objects else pair[1]
        if owner not in bad and pair not in done:
            pairs[owner][pair] = None
        elif owner in bad and id not in bad and id not in ids(objects[owner], OPPOSITE[name]):
            dropped.append({"id": id, "list": name, "other": other})
    return pairs, dropped


def to_scripts(program, scripts_path):
    """Moves the mended objects of OBJECTS to SCRIPTS, and tells the others."""
    third = read(objects_of(scripts_path).read_text(encoding="utf-8"))
    scripts = read(scripts_path.read_text(encoding="utf-8"))
    vertices, objects = [], {}
    for it in third["objects"]:
        start = {n: Digits(len(vertices) + k) for k, n in enumerate(it["vertices"])}
        vertices += it["vertices"].values()
        objects[it["id"]] = placed(body(it["object"]), lambda n: start.get(n, Digits(-1)) if isinstance(n, Digits) and
                                   n.lstrip("-").isdigit() else n)
    whole_grid = {"scale": [Digits(1)] * 3, "translate": [Digits(0)] * 3}
    made = {"type": "CityJSON", "version": "2.0", "transform": whole_grid, "CityObjects": objects, "vertices": vertices}
    faults = check(program, made)
    if faults and faults[0]["number"] < 5:
        sys.exit("mend.py: %s: %s" % (objects_of(scripts_path), told(faults[0])))
    bad = defaultdict(list)
    for it in faults:
        if it["number"] in UNHELD:
            bad[it["id"]].append(told(it))
    pairs, dropped = pairs_of(third, scripts, bad)
    scripts += [script(it["id"], it["faults"], it["object"], it["vertices"], pairs[it["id"]])
                for it in third["objects"] if it["id"] not in bad]
    scripts_path.write_text(lines(in_order(scripts)) + "\n", encoding="utf-8")
    left = [{**it, "faults": bad[it["id"]]} for it in third["objects"] if it["id"] in bad]
    for it in left:
        print("%s isn't mended: %s" % (dump(it["id"]), "; ".join(it["faults"])))
    write_objects(objects_of(scripts_path), left, dropped)
    print("moved to %s: %d of %d" % (scripts_path, len(objects) - len(left), len(objects)))
    return 1 if left else 0


def main():
    title, usage, about = __doc__.split("\n\n", 2)
    say = argparse.ArgumentParser(usage=usage.removeprefix("usage: "), description=title + "\n\n" + about,
                                  formatter_class=argparse.RawDescriptionHelpFormatter)
    say.add_argument("--program", default=CITYED)
    say.add_argument("--scripts", action="store_true")
    say.add_argument("files", nargs="+", type=Path)
    given = say.parse_args()
    if len(given.files) != (1 if given.scripts else 3):
        say.error("how many files?")
    return (to_scripts if given.scripts else split)(given.program, *given.files)


if __name__ == "__main__":
    sys.exit(main())
