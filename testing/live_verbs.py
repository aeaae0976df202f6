"""The verbs of live/cityed.py, one by one and at random beside other hands: for its trial, live_client.py."""
import argparse
import json
import random
import shutil
import subprocess
import sys
import tempfile
import threading
import unittest
from pathlib import Path

ROOT = Path(__file__).resolve().parent.parent
sys.path.insert(0, str(ROOT / "live"))
import cityed  # noqa: E402
from cityed import City, NotDone, Number, WrongRequest, dumps, loads  # noqa: E402

TILE = ROOT / "examples/tile.city.json"
NEIGHBOUR = ROOT / "examples/neighbour.city.json"
GIVEN = argparse.Namespace()


class Base(unittest.TestCase):
    def setUp(self):
        self.folder = tempfile.TemporaryDirectory()
        self.path = Path(self.folder.name) / "model.city.json"
        shutil.copy(TILE, self.path)

    def tearDown(self):
        self.folder.cleanup()

    def city(self, **more):
        return City(self.path, program=GIVEN.live, **more)


class Verbs(Base):
    def test_relations(self):
        with self.city() as city:
            shed = city.look("mill-lane-1-shed")
            city.rename("mill-lane-1", "one")
            self.assertEqual(city.look("mill-lane-1-shed").parents, ["one"])
            self.assertEqual(set(city.look("one").children), {"mill-lane-1-house", "mill-lane-1-shed"})
            city.rename("mill-lane-1-shed", "shed")
            self.assertEqual(set(city.look("one").children), {"mill-lane-1-house", "shed"})
            city.retype("shed", "BuildingInstallation")
            now = city.look("shed")
            self.assertEqual((now.type, now.attributes), ("BuildingInstallation", shed.attributes))
            self.assertEqual(now.vertices, shed.vertices)
            city.split_off("one", "two", ["shed"])
            self.assertEqual(city.look("two").children, ["shed"])
            self.assertEqual(city.look("two").attributes, city.look("one").attributes)
            self.assertEqual(city.delete("one"), ["one", "mill-lane-1-house"])
            self.assertEqual(set(city.ids()), {"two", "shed", "mill-lane-3", "garden", "lime"})
            for wrong, text in (((city.rename, "none", "x"), "There is no object none."),
                                ((city.rename, "two", "lime"), "There is an object lime already."),
                                ((city.retype, "lime", "Building part"), None),
                                ((city.split_off, "two", "three", ["lime"]), "lime isn't a part of two.")):
                with self.assertRaises((NotDone, WrongRequest)) as caught:
                    wrong[0](*wrong[1:])
                if text:
                    self.assertEqual(str(caught.exception), text)

    def test_shapes(self):
        with self.city() as city:
            before = city.look("mill-lane-3")
            self.assertEqual(city.raise_top("mill-lane-3", 0, "1.5"), 4)
            after = city.look("mill-lane-3")
            self.assertEqual(sorted({v[2] for v in after.vertices}), [0, 7625])
            self.assertEqual(after.object["geographicalExtent"][5], Number("2.325"))
            self.assertEqual(after.attributes, before.attributes)
            city.move("mill-lane-1", 2, "-0.5")
            self.assertEqual(city.look("mill-lane-1").vertices[0], (2000, -500, 0))
            self.assertEqual(city.look("mill-lane-1-house").object["geographicalExtent"][0], Number("84712.1"))
            with self.assertRaises(NotDone):
                city.raise_top("mill-lane-3", 1000, 1)

    def test_files(self):
        out = self.path.parent / "out.city.json"
        with self.city() as city:
            notes = city.copy(NEIGHBOUR, "mill-lane-7")
            self.assertEqual(len(notes), 1)  # the neighbour names no reference system
            self.assertEqual(city.look("mill-lane-7-house").vertices[0], (19900, 0, 0))
            self.assertEqual(city.look("mill-lane-7")["plot"].text, "312.50")
            city.copy(NEIGHBOUR, "mill-lane-7", "mill-lane-9")
            self.assertEqual(city.look("mill-lane-9").children, ["mill-lane-9-house"])
            with self.assertRaises(NotDone) as caught:
                city.copy(NEIGHBOUR, "mill-lane-8")
            self.assertIn("no object mill-lane-8; is it mill-lane-7", str(caught.exception))
            self.assertEqual(city.merge(NEIGHBOUR), notes)  # it is there, and is the same
            city.set("mill-lane-7", built=1975)
            with self.assertRaises(NotDone):
                city.merge(NEIGHBOUR)
            other = loads(NEIGHBOUR.read_text())
            other["metadata"]["referenceSystem"] = "https://www.opengis.net/def/crs/EPSG/0/28992"
            far = self.path.parent / "far.city.json"
            far.write_text(dumps(other))
            with self.assertRaises(NotDone) as caught:
                city.copy(far, "mill-lane-7", "x")
            self.assertIn("EPSG:28992", str(caught.exception))
            model = city.model()
            gone = city.take_out("mill-lane-1", out)
            self.assertEqual(gone, ["mill-lane-1", "mill-lane-1-house", "mill-lane-1-shed"])
            self.assertIsNone(city.look("mill-lane-1-shed"))
            with self.assertRaises(NotDone):
                city.take_out("lime", out)  # the file is there
            self.assertIsNotNone(city.look("lime"))
            self.assertEqual(city.merge(out), [])
            again = city.model()
            for it in (model, again):
                it["CityObjects"]["mill-lane-1"].pop("children")
            self.assertEqual(cityed._document({}, families(model)), cityed._document({}, families(again)))
            with self.assertRaises(NotDone):
                city.extract("mill-lane-1-shed", self.path.parent / "shed.city.json")
        words = [GIVEN.program, "--decimals", out, "/dev/stdin"]
        run = subprocess.run(words, input=b"[]", stdout=subprocess.PIPE, timeout=60)
        self.assertEqual(run.returncode, 0)

    def test_materials(self):
        """Materials follow where the model has the same ones, in any order; else it is told."""
        tile = loads(TILE.read_text())
        tile["appearance"]["materials"].reverse()
        into = loads(NEIGHBOUR.read_text())
        for name, appearance in (("other order", tile["appearance"]), ("none", None)):
            self.path.write_text(dumps({**into, "appearance": appearance} if appearance else into))
            with self.city() as city:
                notes = city.copy(TILE, "mill-lane-1")
                shapes = city.look("mill-lane-1-house").geometry
                self.assertTrue(any("textures of mill-lane-1-house" in it for it in notes), notes)
                told = [it for it in notes if "materials" in it]
                kept = [it["material"] for it in shapes if "material" in it]
                old = [it["material"] for it in loads(TILE.read_text())["CityObjects"]["mill-lane-1-house"]["geometry"]
                       if "material" in it]
                self.assertEqual((bool(told), bool(kept)), (name == "none", name != "none"))
                if kept:  # of two materials in the other order, each index is the other one
                    self.assertEqual(dumps(kept), dumps(old).translate(str.maketrans("01", "10")))

    def test_flag(self):
        with self.city() as city:
            flagged = city.flag(lambda it: it.get("roof") == "flat", {"inspected": False})
            self.assertEqual(set(flagged), {"mill-lane-3", "mill-lane-1-shed"})
            self.assertIs(city.look("mill-lane-3")["inspected"], False)

    def test_many(self):
        """More objects than a transaction has commands: told, or done in parts."""
        shed = loads(NEIGHBOUR.read_text())
        for n in range(1500):
            shed["CityObjects"]["post-%d" % n] = {"type": "CityFurniture", "attributes": {"n": n}}
        many = self.path.parent / "many.city.json"
        many.write_text(dumps(shed))
        with self.city() as city:
            with self.assertRaises(NotDone) as caught:
                city.merge(many)
            self.assertIn("more commands", str(caught.exception))
            self.assertEqual(len(city.ids()), 6)
            city.merge(many, in_parts=True)
            self.assertEqual(len(city.ids()), 6 + 2 + 1500)
            self.assertEqual(city.look("mill-lane-7").children, ["mill-lane-7-house"])
            self.assertEqual(len(city.flag(lambda it: it.get("n", -1) >= 100, {"old": True}, in_parts=True)), 1400)
            self.assertIs(city.look("post-1499")["old"], True)

    def test_command_line(self):
        out = self.path.parent / "out.city.json"

        def line(*words):
            ran = subprocess.run([sys.executable, ROOT / "live/cityed.py", "--program", GIVEN.live, *words],
                                 stdout=subprocess.PIPE, stderr=subprocess.PIPE, text=True, timeout=60)
            return ran.returncode, ran.stdout, ran.stderr
        before = self.path.read_bytes()
        chain = ["set", "mill-lane-3", "storeys=3", "roof=steep", "delete", "lime", "rename", "mill-lane-1", "set",
                 "flag", "old=true", "where", "type=Building", "built<1950", "save", out]
        self.assertEqual(line(self.path, *chain)[0], 0)
        self.assertEqual(self.path.read_bytes(), before)
        objects = loads(out.read_text())["CityObjects"]
        self.assertEqual(objects["mill-lane-3"]["attributes"]["roof"], "steep")
        self.assertEqual(set(objects["set"]["children"]), {"mill-lane-1-house", "mill-lane-1-shed"})
        self.assertEqual([id for id, it in objects.items() if "old" in it.get("attributes", {})], ["set"])
        self.assertNotIn("lime", objects)
        status, said, _ = line(out, "look", ":set", "ids")
        self.assertEqual((status, loads(said.splitlines()[0])["id"], len(said.splitlines())), (0, "set", 6))
        status, _, told = line(self.path, "delete", "garden", "delete", "nothing", "save")
        self.assertEqual((status, told), (1, "cityed: delete: There is no object nothing.\n"))
        self.assertEqual(self.path.read_bytes(), before)
        for wrong in (["set", "x"], ["delete", "lime"], ["fly", "lime"], ["ids", "lime"], ["set", "x", "y", "save"]):
            self.assertEqual(line(self.path, *wrong)[0], 2, wrong)
        self.assertEqual(line("--help")[0], 0)


def families(model):
    objects = {}
    for id in sorted(model["CityObjects"]):
        objects[id] = cityed.CityObject(id, model["CityObjects"][id], model["vertices"])
    return objects


class Random(Base):
    """Verbs of several hands at once, and then all that was committed, again, by the batch program."""

    def test_verbs_beside_others(self):
        for round_ in range(GIVEN.rounds):
            with self.subTest(seed=GIVEN.seed + round_):
                self.beside(GIVEN.seed + round_)

    def beside(self, seed):
        shutil.copy(TILE, self.path)
        done, commits = {}, []
        commit = cityed._Transaction._commit

        async def noted(t):
            end = await commit(t)
            log = [(it["do"], it.get("vertices", [])) for it, told in t.log if "reply" in told]
            commits.append((end.version, end.since, t.name, log))
            return end
        cityed._Transaction._commit = noted
        try:
            with self.city(output=self.path.parent / "out") as city:
                city.frame()
                given = [(city, "h%d" % k, random.Random("%d %d" % (seed, k)), done) for k in range(5)]
                threads = [threading.Thread(target=self.hand, args=it) for it in given]
                for it in threads:
                    it.start()
                for it in threads:
                    it.join(120)
                    self.assertFalse(it.is_alive())
        finally:
            cityed._Transaction._commit = commit
        self.assertEqual([it for it in done.get("wrong", [])], [])
        writes = sorted(it for it in commits if any(not {"read", "expect"} & set(c) for c, _ in it[3]))
        self.assertEqual([it[0] for it in writes], list(range(1, len(writes) + 1)))
        text = dumps([self.script(name, log) for _, _, name, log in writes])
        scripts = self.path.parent / "scripts.txt"
        scripts.write_text(text)
        words = [GIVEN.program, "--decimals", "--atomic", "-o", self.path.parent / "batch", self.path, scripts]
        run = subprocess.run(words, stdout=subprocess.PIPE, stderr=subprocess.STDOUT, timeout=60)
        self.assertEqual(run.returncode, 0, run.stdout[-500:])
        if GIVEN.canonical:
            self.assertEqual((self.path.parent / "batch").read_bytes(), (self.path.parent / "out").read_bytes())
        else:
            batch, live = (loads((self.path.parent / it).read_text()) for it in ("batch", "out"))
            self.assertEqual(self.told(batch), self.told(live))
        print("seed %d: %d commits; %s" % (seed, len(writes), ", ".join("%s %d" % it for it in sorted(done.items()))))

    @staticmethod
    def told(model):
        """What a model says, whatever its vertices' numbers are."""
        def at(item):
            return [at(it) for it in item] if isinstance(item, list) else model["vertices"][item]
        for it in model["CityObjects"].values():
            for shape in it.get("geometry", []):
                shape["boundaries"] = at(shape["boundaries"])
        return json.loads(dumps({**model, "vertices": []}))

    @staticmethod
    def script(name, log):
        commands, vertices = [], []
        for command, own in log:
            if "read" in command:
                continue
            commands.append(cityed._moved(command, len(vertices)))
            vertices += own
        return {"name": name, "commands": [*commands, "commit"], "vertices": [list(it) for it in vertices]}

    def hand(self, city, hand, rng, done):
        for n in range(12):
            ids = list(city.ids()) or ["none"]
            one, new = rng.choice(ids), "%s-%d" % (hand, n)
            verb, *given = rng.choice([
                ("rename", one, new), ("rename", one, rng.choice(ids)), ("delete", one if n % 3 else "none"),
                ("retype", one, rng.choice(["Building", "BuildingPart"])), ("raise_top", one, 0, 1),
                ("move", one, 1, "0.25", 0), ("move", one, -1, 0, "0.125"), ("split_off", one, new, [rng.choice(ids)]),
                ("copy", NEIGHBOUR, "mill-lane-7", new), ("merge", NEIGHBOUR), ("set", one, {"n": n}),
                ("unset", one, "n"), ("flag", lambda it: it.type == "Building", {"seen by": new}),
                ("take_out", one, self.path.parent / new)])
            try:
                getattr(city, verb)(*given, hand=hand)
                done[verb] = done.get(verb, 0) + 1
            except (NotDone, WrongRequest):
                done["not done"] = done.get("not done", 0) + 1
            except BaseException as error:  # noqa: BLE001 - the thread tells it
                done.setdefault("wrong", []).append("%s: %r" % (verb, error))
                return
