#!/usr/bin/env python3
"""Tries live/cityed.py against a program: transactions, edits, watches, verbs, the command line, and verbs at random.

    python3 testing/live_client.py PROGRAM [--live WORDS] [--seed N] [--rounds N] [TEST ..]

PROGRAM runs texts of scripts; WORDS start its live editing and are "PROGRAM --live" unless they are given. At random,
several hands do verbs at once. All that they committed, in the order of versions, is then run again by the batch
program as a text of scripts, and has to give the same model, byte for byte.
"""
import argparse
import asyncio
import shlex
import sys
import threading
import time
import unittest
from decimal import Decimal

from live_verbs import GIVEN, Base, Random, Verbs  # noqa: F401 - the last two are run from here
from cityed import AsyncCity, City, Closed, Conflict, Number, Refused, Stale, WrongRequest  # live_verbs has found it
from cityed import dumps, loads


class Numbers(unittest.TestCase):
    def test_digits(self):
        text = ('{"a":0.250,"b":-0,"c":[1e3,1E+3,1e999,18446744073709551616,48.0,7],'
                '"d":{"e":true,"f":null,"g":"\\u00e9"}}')
        self.assertEqual(dumps(loads(text)), text)
        n = loads("48.0")
        self.assertEqual((n + 1, n.exact, n == 48, isinstance(n, float)), (49.0, Decimal("48.0"), True, True))
        self.assertEqual(dumps({"a": Decimal("1.50"), "b": 0.1, "c": (1, 2)}), '{"a":1.50,"b":0.1,"c":[1,2]}')
        for bad in (float("nan"), Decimal("Infinity")):
            self.assertRaises(ValueError, dumps, bad)


class Transactions(Base):
    def test_transaction(self):
        with self.city(hand="ann") as city:
            with city.transaction("ann") as t:
                house = t.read("mill-lane-3")
                self.assertEqual((house["storeys"], house.type, house["volume"].text), (2, "Building", "367.50"))
                t.set("mill-lane-3", storeys=house["storeys"] + 1)
                t.set("mill-lane-3", {"of a kind": Decimal("0.10")})
            self.assertEqual(t.end.outcome, "committed")
            self.assertEqual(city.look("mill-lane-3")["storeys"], 3)
            self.assertIsNone(city.look("nothing"))
            found = city.look_at(["garden", "nothing"])
            self.assertEqual((found["garden"].type, found["nothing"]), ("LandUse", None))
            self.assertEqual(city.ids()["garden"], "LandUse")
            self.assertEqual(city.save(), 1)
        self.assertIn('"of a kind":0.10', self.path.read_text())
        self.assertIn('"volume":367.50', self.path.read_text())

    def test_abort(self):
        with self.city() as city:
            with self.assertRaises(ZeroDivisionError), city.transaction("ann") as t:
                t.set("garden", use="none")
                1 / 0
            self.assertEqual((t.end.outcome, city.look("garden")["use"]), ("aborted", "garden"))
            with self.assertRaises(Refused) as caught, city.transaction("ann") as t:
                t.add("garden", {"type": "LandUse"})
            self.assertEqual((caught.exception.cause, caught.exception.id), ("Exists", "garden"))
            with self.assertRaises(WrongRequest), city.transaction("ann") as t:
                t.add("x", {"type": "Tree"})
            with city.transaction("ann") as t:  # a refusal that is caught
                t.set("garden", use="meadow")
                with self.assertRaises(Conflict):
                    t.expect("garden", use="garden")
                t.set("garden", {"use": "garden"})
            self.assertEqual((t.end.outcome, t.end.replies), ("committed", ["set", "set"]))
            with self.assertRaises(Refused) as caught, city.transaction("ann") as t:
                t.detach("mill-lane-1-shed", "mill-lane-1")
            self.assertEqual((caught.exception.cause, t.end.outcome), ("Orphan", "aborted"))
            with city.transaction("ann") as t:  # the hand is free again
                t.delete("lime")
            self.assertIsNone(city.look("lime"))

    def test_unsaved(self):
        with self.city(save=False) as city, city.transaction() as t:
            t.delete("lime")
        self.assertIn("lime", self.path.read_text())
        with self.assertRaises(ZeroDivisionError), self.city() as city:
            with city.transaction() as t:
                t.delete("lime")
            1 / 0
        self.assertIn("lime", self.path.read_text())

    def test_restart_unnoticed(self):
        with self.city() as city:
            ann, ben = city.transaction("ann"), city.transaction("ben")
            with ann, ben:
                self.assertEqual(ben.read("lime")["height"], 9.2)
                ann.set("garden", use="orchard")
                timer = threading.Timer(0.2, ann.commit)
                timer.start()
                ben.set("garden", area=50)  # dies, waits for Ann, reads the lime again, goes on
                timer.join()
                self.assertEqual(ben.restarts, 1)
            self.assertEqual(dict(city.look("garden")), {"use": "orchard", "area": 50})

    def test_stale(self):
        with self.city() as city:
            ann, ben = city.transaction("ann"), city.transaction("ben")
            with ann:
                with self.assertRaises(Stale), ben:
                    self.assertEqual(ben.read("lime")["height"], 9.2)
                    ann.set("garden", use="orchard")

                    def rest():
                        ann.set("lime", height=10)
                        ann.commit()

                    timer = threading.Timer(0.2, rest)
                    timer.start()
                    try:
                        ben.set("garden", area=50)
                    finally:
                        timer.join()
            self.assertEqual(ben.end.outcome, "aborted")

    def test_attempts(self):
        with self.city() as city:
            def add(hand):
                for _ in range(15):
                    def more(t):
                        n = t.read("mill-lane-3")["storeys"]
                        time.sleep(0.001)
                        t.set("mill-lane-3", storeys=n + 1)
                    city.run(more, hand, most=1000)
            threads = [threading.Thread(target=add, args=("h%d" % k,)) for k in range(4)]
            for it in threads:
                it.start()
            for it in threads:
                it.join()
            self.assertEqual(city.look("mill-lane-3")["storeys"], 2 + 60)
            tries = 0
            for t in city.attempts("ann"):
                with t:
                    tries += 1
                    t.set("lime", tries=tries)
                    if tries < 3:
                        t.abort()
                        raise Stale("as if")
            self.assertEqual((tries, city.look("lime")["tries"]), (3, 3))

    def test_edit(self):
        with self.city() as city:
            with city.edit("ann") as e:
                house = e.look("mill-lane-3")
                e.set("mill-lane-3", storeys=house["storeys"] + 1)
                e.unset("mill-lane-3", "roof")
            self.assertEqual(e.end.replies, ["expected", "set", "unset"])
            with self.assertRaises(Conflict) as caught, city.edit("ben") as e:
                area = e.look("garden")["area"]
                commands = [{"set": "garden", "attributes": {"area": Number("48.00")}}, "commit"]
                city.script("meanwhile", commands, hand="cid")
                e.set("garden", area=area + 1)
            self.assertEqual(caught.exception.id, "garden")
            with city.edit() as e:
                shed = e.look("mill-lane-1-shed")
                e.add("copy 1", shed)
                e.add("copy 2", shed)
                e.attach("copy 1", "mill-lane-3")
                e.attach("copy 2", "mill-lane-3")
            self.assertEqual(city.look("copy 2").vertices, city.look("mill-lane-1-shed").vertices)

    def test_watch(self):
        with self.city() as city:
            with city.watch() as watch:
                commands = [{"set": "garden", "attributes": {"a": 1}}, {"delete": "lime"}, "commit"]
                city.script("one", commands, hand="ann")
                change = watch.get(5)
                self.assertEqual((change.version, change.by, change.name), (1, "ann", "one"))
                self.assertEqual((change.changed["garden"]["a"], change.changed["lime"]), (1, None))
                self.assertIsNone(watch.get(0.05))
            late = city.watch()
            again = [{"unset": "garden", "attributes": ["a"]}, "commit"]
            threading.Timer(0.1, lambda: city.script("two", again)).start()
            for change in late:
                break
            self.assertEqual(change.version, 2)
        self.assertEqual(list(late), [])

    def test_timeout(self):
        waited = []
        with self.city(on_wait=lambda id, hands: waited.append((id, hands))) as city:
            with city.transaction("ann") as ann, city.transaction("ben") as ben:
                ben.read("garden")
                ann.timeout = 0.1
                with self.assertRaises(TimeoutError):
                    ann.set("garden", a=1)
                self.assertEqual((ann.end.outcome, waited), ("aborted", [("garden", ["ben"])]))

    def test_gone(self):
        city = self.city().open()
        city._link.process.kill()
        time.sleep(0.1)
        self.assertRaises(Closed, city.look, "lime")
        city.close()
        with self.assertRaises(Closed) as caught:
            City(self.path.parent / "missing.city.json", program=GIVEN.live).open()
        self.assertIn("cityed", str(caught.exception))

    def test_keys(self):
        with self.city(journal=self.path.parent / "journal") as city:
            line = {"hand": "ann", "key": "k1", "script": {"name": "x", "commands": [{"delete": "lime"}, "commit"]}}
            first, second = (city._link.ask(line).result(5) for _ in range(2))
            self.assertEqual([it["ended"]["outcome"] for it in (first, second)], ["committed", "committed"])
            made = [city._link.ask({"hand": "ann", "made": it}).result(5)["made"] for it in ("k1", "k2")]
            self.assertEqual(made, [1, None])


class Async(Base, unittest.IsolatedAsyncioTestCase):
    async def test_all(self):
        async with AsyncCity(self.path, program=GIVEN.live) as city:
            async with city.watch() as watch:
                async with city.transaction("ann") as t:
                    house = await t.read("mill-lane-3")
                    await t.set("mill-lane-3", storeys=house["storeys"] + 1)
                change = await watch.__anext__()
                self.assertEqual((change.by, change.changed["mill-lane-3"]["storeys"]), ("ann", 3))
            async with city.edit("ben") as e:
                await e.look("garden")
                e.set("garden", use="orchard")

            for t in city.attempts("cid"):
                async with t:
                    await t.set("lime", crown=(await t.read("lime"))["crown"] + 1)
            self.assertEqual((await city.look("lime"))["crown"], 5.5)

            async def more(t):
                n = (await t.read("mill-lane-3"))["storeys"]
                await asyncio.sleep(0)
                await t.set("mill-lane-3", storeys=n + 1)

            await asyncio.gather(*(city.run(more, "h%d" % k, most=1000) for k in range(10)))
            self.assertEqual((await city.look("mill-lane-3"))["storeys"], 13)
            with self.assertRaises(Conflict):
                await city.script("no", [{"expect": "lime", "attributes": {"height": 9}}, "commit"])
            await city.rename("lime", "linden")
            self.assertEqual((await city.look("linden"))["height"], 9.2)
            self.assertEqual((await city.model())["transform"]["translate"][0].text, "84710.1")
        self.assertIn('"storeys":13', self.path.read_text())


def main():
    say = argparse.ArgumentParser(description=__doc__, formatter_class=argparse.RawDescriptionHelpFormatter)
    say.add_argument("program")
    say.add_argument("--live", help="how live editing is started")
    say.add_argument("--seed", type=int, default=1)
    say.add_argument("--rounds", type=int, default=3)
    say.add_argument("tests", nargs="*")
    say.parse_args(namespace=GIVEN)
    GIVEN.canonical = GIVEN.live is None
    GIVEN.live = GIVEN.live or shlex.join([GIVEN.program, "--live"])
    unittest.main(argv=[sys.argv[0], *GIVEN.tests])


if __name__ == "__main__":
    main()
