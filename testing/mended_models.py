#!/usr/bin/env python3
"""Tries examples/mend.py: faulty models are split, compared by a reading of this trial's own, mended and put back.

    python3 testing/mended_models.py PROGRAM [--seed N] [--runs N] [--only KIND]

Each run makes faults of one kind in a lawful model: `shapes` (rings, shells), `objects` (types, geometries, indices),
`relations`, or `random` ones, any value anywhere in an object. Then

- the rest has to be lawful, and each object word for word in exactly one of the three files;
- each relation of the model is in the rest, is attached by a script, or is told in the third file;
- with the faulty objects mended, the scripts put the whole model together again (of random faults this isn't tried).
"""
import argparse
import copy
import json
import random
import subprocess
import sys
import tempfile
from collections import Counter
from pathlib import Path

ROOT = Path(__file__).resolve().parent.parent
KINDS = ("shapes", "objects", "relations", "random")
NUMBERS = ("1.50", "1e3", "-0.0", "48.0", "18446744073709551616", "7", "2.5E-3")
VALUES = (None, True, 3, -1, "x", "", [], {}, [1], [[]], {"type": "Solid"}, [None], ["one"], [["one"]])
CUBE = [[[0, 3, 2, 1]], [[4, 5, 6, 7]], [[0, 1, 5, 4]], [[1, 2, 6, 5]], [[2, 3, 7, 6]], [[3, 0, 4, 7]]]


class Plain(str):
    """A number, as it is written."""


def load(text):
    return json.loads(text, parse_int=Plain, parse_float=Plain)


def spelled(value):
    """A value with each number told from a text."""
    if isinstance(value, Plain):
        return ("number", str(value))
    if isinstance(value, dict):
        return {name: spelled(it) for name, it in value.items()}
    return [spelled(it) for it in value] if isinstance(value, list) else value


def lawful(rng):
    """A random lawful model as Python has it; numbers of attributes are texts that begin with #."""
    objects, vertices = {}, []

    def cube(x):
        start = len(vertices)
        vertices.extend([x + a, b, c] for c in (0, 3) for a, b in ((0, 0), (2, 0), (2, 2), (0, 2)))
        faces = [[[n + start for n in ring] for ring in face] for face in CUBE]
        return {"type": "Solid", "lod": "1", "boundaries": [faces]}

    def object(type, k):
        it = {"type": type, "attributes": {"n": "#" + rng.choice(NUMBERS), "é": ["#" + rng.choice(NUMBERS), "7"]}}
        if rng.random() < 0.8:
            it["geometry"] = [cube(10 * k + 4 * n) for n in range(rng.randrange(1, 3))]
        return it
    for k in range(rng.randrange(1, 9)):
        whole = objects["b%d" % k] = object(rng.choice(["Building", "Bridge", "Road", "LandUse"]), k)
        if whole["type"] in ("Road", "LandUse"):
            continue
        family, mine = whole["type"], ["b%d" % k]
        for n in range(rng.randrange(4)):
            id = "b%d-%d" % (k, n)
            objects[id] = object(family + rng.choice(["Part", "Installation"]), k)
            for parent in rng.sample(mine, min(len(mine), rng.choice([1, 1, 1, 2]))):
                objects[id].setdefault("parents", []).append(parent)
                objects[parent].setdefault("children", []).append(id)
            if rng.random() < 0.4:
                mine.append(id)
        if len(mine) > 2 and rng.random() < 0.5:  # two parts that are each other's parents
            for child, parent in ((mine[1], mine[2]), (mine[2], mine[1])):
                if parent not in objects[child]["parents"]:
                    objects[child]["parents"].append(parent)
                    objects[parent].setdefault("children", []).append(child)
    return {"type": "CityJSON", "version": "2.0", "transform": {"scale": [1, 1, 1], "translate": [0, 0, 0]},
            "title": "#" + rng.choice(NUMBERS), "CityObjects": objects, "vertices": vertices}


def written(model):
    """A model as a text, with its numbers."""
    text = json.dumps(model, ensure_ascii=False)
    for number in NUMBERS:
        text = text.replace('"#%s"' % number, number)
    return text


# ---- faults


def shapes(model, rng, id):
    solid = rng.choice(model["CityObjects"][id].get("geometry") or [None])
    if solid is None:
        return
    shell = solid["boundaries"][0]
    face = rng.choice(shell)
    rng.choice([lambda: shell.remove(face), lambda: face[0].reverse(), lambda: face[0].append(face[0][0]),
                lambda: face[0].__delitem__(slice(2, None)), face.clear])()


def objects(model, rng, id):
    it = model["CityObjects"][id]
    solid = rng.choice(it.get("geometry") or [None])
    if solid is None or rng.random() < 0.3:
        it.update(rng.choice([{"type": "Tree"}, {"type": 3}, {"address": {"location": 1}}, {"geometry": 3}]))
        return
    ring = solid["boundaries"][0][0][0]
    ring[0] = rng.choice([ring[0], 100_000, -1, "x", None])
    solid.update(rng.choice([{}, {"lod": 2}, {"type": "MultiPoint"}, {"boundaries": "none"}]))


def relations(model, rng, id):
    it, others = model["CityObjects"][id], [*model["CityObjects"], "nobody"]
    name = rng.choice(["parents", "children"])
    if name in it and rng.random() < 0.3:
        rng.choice([it[name].reverse, it[name].pop, lambda: it.pop(name), lambda: it.update({name: 3})])()
    elif isinstance(it.get(name, []), list):
        other = rng.choice(others + it.get(name, []))
        it.setdefault(name, []).append(other)
        back = model["CityObjects"].get(other, {}).setdefault("children" if name == "parents" else "parents", [])
        if rng.random() < 0.4 and isinstance(back, list):
            back.append(id)


def anything(model, rng, id):
    at = model["CityObjects"][id]
    for _ in range(rng.randrange(7)):
        key = rng.choice([*at] if isinstance(at, dict) else range(len(at))) if at else None
        if key is None or not isinstance(at[key], (dict, list)) or not at[key] or rng.random() < 0.2:
            break
        at = at[key]
    if isinstance(at, dict):
        at[rng.choice([*at, "parents", "children", "geometry", "new"])] = copy.deepcopy(rng.choice(VALUES))
    elif at:
        at[rng.randrange(len(at))] = copy.deepcopy(rng.choice(VALUES))


FAULTS = {"shapes": shapes, "objects": objects, "relations": relations, "random": anything}


# ---- judging


def pointed(item, vertices):
    """Boundaries with points for numbers."""
    if isinstance(item, list):
        return [pointed(it, vertices) for it in item]
    return ("point", spelled(vertices[item])) if isinstance(item, Plain) and item in vertices else spelled(item)


def body(it, vertices):
    if not isinstance(it, dict):
        return spelled(it)
    told = {name: spelled(value) for name, value in it.items() if name not in ("parents", "children")}
    if isinstance(it.get("geometry"), list):
        told["geometry"] = [{**spelled(one), "boundaries": pointed(one["boundaries"], vertices)}
                            if isinstance(one, dict) and isinstance(one.get("boundaries"), list) else spelled(one)
                            for one in it["geometry"]]
    return told


def by_number(points):
    return {str(n): it for n, it in enumerate(points)}


def claims(objects):
    """What lists of ids say, as (child, parent)."""
    for id, it in objects.items():
        for name in ("parents", "children") if isinstance(it, dict) else ():
            given = it.get(name)
            if isinstance(given, list) and all(isinstance(one, str) and not isinstance(one, Plain) for one in given):
                yield from ((id, one) if name == "parents" else (one, id) for one in given)


class Run:
    """A model with faults in a folder of its own."""

    def __init__(self, program, kind, rng):
        self.program, self.kind, self.rng = program, kind, rng
        self.good = lawful(rng)
        self.bad = copy.deepcopy(self.good)
        ids = [*self.bad["CityObjects"]]
        for id in rng.sample(ids, min(len(ids), rng.randrange(1, 5))):
            FAULTS[kind](self.bad, rng, id)

    def paths(self, folder):
        return [Path(folder) / name for name in ("model", "rest", "scripts.json", "scripts.objects.json", "new")]

    def call(self, *words):
        done = subprocess.run([str(it) for it in words], stdout=subprocess.PIPE, stderr=subprocess.STDOUT, text=True)
        return done.returncode, done.stdout

    def mend(self, *words):
        return self.call(sys.executable, ROOT / "examples/mend.py", "--program", self.program, *words)

    def go(self, folder):
        """Splits, judges, mends; gives how many objects were in which file."""
        model, rest, scripts, third, new = self.paths(folder)
        model.write_text(written(self.bad), encoding="utf-8")
        status, said = self.mend(model, rest, scripts)
        assert status == 0 and said.endswith("nothing is lost\n"), said
        told = self.call(self.program, "--check", "--decimals", rest, scripts)
        assert told == (0, ""), "the rest or the scripts have faults: %s" % told[1]
        counts = self.judge(*(load(it.read_text(encoding="utf-8")) for it in (model, rest, scripts, third)))
        if self.kind != "random":
            self.put_back(rest, scripts, third, new)
        return counts

    def judge(self, model, rest, scripts, third):
        points = by_number(model["vertices"])
        parts = [(id, body(it, points)) for id, it in rest["CityObjects"].items()]
        adds = [(it, by_number(one["vertices"])) for one in scripts for it in one["commands"] if "add" in it]
        parts += [(it["add"], body(it["object"], own)) for it, own in adds]
        parts += [(it["id"], body(it["object"], it["vertices"])) for it in third["objects"]]
        assert Counter(id for id, _ in parts) == Counter(list(model["CityObjects"])), "an object is lost, or twice"
        for id, found in parts:
            assert found == body(model["CityObjects"][id], points), "%s isn't as it was" % id
        for name in model.keys() - {"CityObjects"}:
            assert spelled(model[name]) == spelled(rest[name]), name
        known = {(it["attach"], it["parent"]) for one in scripts for it in one["commands"] if "attach" in it}
        known |= set(claims(rest["CityObjects"])) | set(claims({it["id"]: it["object"] for it in third["objects"]}))
        known |= {(it["id"], it["other"]) if it["list"] == "parents" else (it["other"], it["id"])
                  for it in third["relations"] if "other" in it}
        assert set(claims(model["CityObjects"])) <= known, "a relation is lost"
        return len(rest["CityObjects"]), len(adds), len(third["objects"])

    def put_back(self, rest, scripts, third, new):
        """Mends as a person would, from what the model was before its faults."""
        good = load(written(self.good))
        objects, points = good["CityObjects"], by_number(good["vertices"])
        kept = json.loads(third.read_text(encoding="utf-8"))
        for it in kept["objects"]:
            it.update(object="@" + it["id"], vertices="@vertices")
        text = json.dumps(kept)
        for it in kept["objects"]:
            text = text.replace(json.dumps(it["object"]), written(self.good["CityObjects"][it["id"]]))
        third.write_text(text.replace('"@vertices"', written(by_number(self.good["vertices"]))), encoding="utf-8")
        status, said = self.mend("--scripts", scripts)
        assert status == 0, said
        told = json.loads(scripts.read_text(encoding="utf-8"))
        here, firsts = {it["add"] for one in told for it in one["commands"] if "add" in it}, []
        for one in told:
            self.mend_script(one, here)
        scripts.write_text(written(told + firsts), encoding="utf-8")
        status, said = self.call(self.program, "--decimals", "--atomic", "-o", new, rest, scripts)
        assert status == 0, said + scripts.read_text(encoding="utf-8")
        found = load(new.read_text(encoding="utf-8"))
        whole, own = found["CityObjects"], by_number(found["vertices"])
        assert whole.keys() == objects.keys(), "not all is back"
        for id, it in objects.items():
            if self.kind != "relations" or id in here:
                assert body(whole[id], own) == body(it, points), "%s isn't as it was before its fault" % id
        if self.kind != "relations":
            assert set(claims(whole)) == set(claims(objects)), "relations aren't as they were"

    def mend_script(self, one, here):
        """Of a script the objects as they were, and each attach that has to be."""
        adds = [it["add"] for it in one["commands"] if "add" in it]
        commands = [{"add": id, "object": {name: it for name, it in self.good["CityObjects"][id].items()
                                           if name not in ("parents", "children")}} for id in adds]
        attaches = [it for it in one["commands"] if "attach" in it]
        if self.kind == "relations":  # as they were, to what is there by now
            attaches = [{"attach": id, "parent": parent} for id in adds
                        for parent in self.good["CityObjects"][id].get("parents", [])]
            attaches += [{"attach": child, "parent": id} for id in adds
                         for child in self.good["CityObjects"][id].get("children", []) if child not in here]
        one.update(vertices=self.good["vertices"], commands=[*commands, *attaches, "commit"])


def main():
    say = argparse.ArgumentParser(description=__doc__, formatter_class=argparse.RawDescriptionHelpFormatter)
    say.add_argument("program", type=lambda it: str(Path(it).resolve()))
    say.add_argument("--seed", type=int, default=1)
    say.add_argument("--runs", type=int, default=150, help="of each kind")
    say.add_argument("--only", choices=KINDS)
    given, wrong = say.parse_args(), 0
    for kind in [given.only] if given.only else KINDS:
        totals = [0, 0, 0]
        for n in range(given.runs):
            seed = "%s %d" % (kind, given.seed + n)
            with tempfile.TemporaryDirectory() as folder:
                try:
                    counts = Run(given.program, kind, random.Random(seed)).go(folder)
                    totals = [a + b for a, b in zip(totals, counts)]
                except AssertionError as error:
                    wrong += 1
                    print("--only %s --seed %d --runs 1: %s" % (kind, given.seed + n, str(error)[:2000]))
        print("%s: %d models; objects in the rest, in scripts, in the third file: %d, %d, %d" % (
            kind, given.runs, *totals), flush=True)
    print("%d wrong" % wrong)
    return 1 if wrong else 0


if __name__ == "__main__":
    sys.exit(main())
