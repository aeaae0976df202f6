"""Engines and gateways that end, are killed or save: of the trial of live/gateway.py."""
import asyncio
import json
import os
import signal
import time
import unittest

from live_running import Page, Running, patience
from cityed import AsyncCity, City, Closed, CityedError, Conflict, WrongRequest  # live_running has found it


class Gateways(unittest.IsolatedAsyncioTestCase):
    options = ("--idle", "1", "--save-every", "0")

    def setUp(self):
        self.run_ = Running(options=self.options)

    async def asyncSetUp(self):
        asyncio.get_running_loop().slow_callback_duration = 60  # unittest's loops tell of slow calls otherwise

    def tearDown(self):
        self.run_.close()

    def page(self, who, token=None, **more):
        return Page(self.run_, who, token, **more)


class Saves(Gateways):
    options = ("--save-every", "1")

    async def test_saves_by_itself(self):
        async with self.page("ann") as ann:
            await ann.ask(script={"name": "x", "commands": [{"delete": "lime"}, "commit"]})
            for _ in range(100):
                if self.run_.health()["saved"] == 1:
                    break
                await asyncio.sleep(0.1)
        self.assertNotIn('"lime"', self.run_.model.read_text())
        self.assertIn("cityed_saves_total 1\n", self.run_.get("/metrics"))


class Engines(Gateways):
    async def test_killed(self):
        async with self.page("ann") as ann:
            await ann.send(follow={})
            first = (await ann.until(lambda it: "epoch" in it))["epoch"]
            await ann.set(kept=1.5)
            ann.inbox.clear()
            os.kill(self.run_.engine_pid(), signal.SIGSTOP)
            number = await ann.send(look="lime")
            await asyncio.sleep(0.2)
            os.kill(self.run_.engine_pid(), signal.SIGKILL)
            unknown = await ann.until(lambda it: it.get("id") == number)
            self.assertEqual(unknown["error"]["fault"], "EngineEnded")
            await ann.until(lambda it: it.get("engine") == "down")
            second = await ann.until(lambda it: it.get("engine") == "up")
            self.assertNotEqual(second["epoch"], first)
            await ann.until(lambda it: "city" in it)
            found = await ann.ask(look="garden")
            self.assertEqual(found["look"]["object"]["attributes"]["kept"], "1.5")
            self.assertEqual(found["version"], 1)

    async def test_client_library(self):
        def others():
            with City(self.run_.socket) as city, city.watch() as watch:
                with city.transaction("tool") as t:
                    t.set("lime", height=t.read("lime")["height"] + 1)
                self.assertEqual(watch.get(5).changed["lime"]["height"], 10.2)
                with self.assertRaises(Conflict), city.edit() as e:
                    e.look("lime")
                    city.script("x", [{"set": "lime", "attributes": {"height": 3}}, "commit"], hand="y")
                    e.set("lime", height=4)
                city.rename("lime", "linden")
                city.delete("mill-lane-1")
        async with self.page("ann") as ann:
            await ann.send(follow={})
            await ann.until(lambda it: "followed" in it)
            await asyncio.to_thread(others)
            change = await ann.until(lambda it: "changed" in it)
            self.assertRegex(change["changed"]["by"], "#[0-9]+/tool$")
        async with AsyncCity(self.run_.socket) as city:
            self.assertEqual((await city.look("linden"))["height"], 3)
            self.assertNotIn("mill-lane-1", await city.ids())

    async def test_client_asks_again(self):
        """A client whose engine, and whose gateway, is killed again and again: each of its edits is done once."""
        def edits():
            with City(self.run_.socket) as city:
                for _ in range(60):
                    def more(t):
                        t.set("garden", n=t.read("garden").get("n", 0) + 1)
                    if _ % 2:
                        n = city.look("garden").get("n", 0)
                        city.script("more", [{"expect": "garden", "attributes": {"n": n} if n else {}},
                                             {"set": "garden", "attributes": {"n": n + 1}}, "commit"])
                    else:
                        self.in_spite(lambda: city.run(more))
                    time.sleep(0.02)

        async def kills():
            for _ in range(4):
                await asyncio.sleep(0.5)
                try:
                    os.kill(self.run_.engine_pid(), signal.SIGKILL)
                except (IndexError, ProcessLookupError):
                    pass
        self.lost = 0
        await asyncio.gather(asyncio.to_thread(self.edits_in_spite, edits), kills())

    def in_spite(self, function):
        """A transaction that was cut before its commit wasn't made, and is done again."""
        for _ in range(200):
            try:
                return function()
            except (Closed, WrongRequest):
                self.lost += 1
                time.sleep(0.05)
        raise AssertionError("it never came through")

    def edits_in_spite(self, edits):
        real = City.look

        def look(city, id):
            return self.in_spite(lambda: real(city, id))
        City.look = look
        try:
            edits()
            with City(self.run_.socket) as city:
                self.assertEqual(city.look("garden")["n"], 60)
        except CityedError as error:
            raise AssertionError(repr(error)) from error
        finally:
            City.look = real

    async def test_long_model(self):
        """A model that is longer than what may wait for a connection comes whole; a second one has to wait."""
        async with self.page("ann") as ann:
            for n in range(6):
                self.assertEqual(await ann.set(**{"big%d" % n: "x" * 3_500_000}), "committed")
            first, second = await ann.send(model=True), await ann.send(model=True)
            told = await ann.until(lambda it: it.get("id") == first, 60)
            self.assertGreater(len(json.dumps(told)), 21_000_000)
            self.assertEqual((await ann.until(lambda it: it.get("id") == second))["error"]["fault"], "TooSoon")
            await ann.send(follow={})
            await ann.until(lambda it: "followed" in it)
            self.assertIn("model", await ann.ask(model=True))

    async def test_saves(self):
        async with self.page("ann") as ann:
            await ann.ask(script={"name": "x", "commands": [{"delete": "lime"}, "commit"]})
            self.assertEqual((await ann.ask(save=True))["saved"], 1)
        self.assertNotIn('"lime"', self.run_.model.read_text())

    async def test_saves_at_the_end(self):
        async with self.page("ann") as ann:
            await ann.ask(script={"name": "x", "commands": [{"delete": "lime"}, "commit"]})
        self.run_.process.send_signal(signal.SIGTERM)
        self.run_.process.wait(patience(20))
        self.assertNotIn('"lime"', self.run_.model.read_text())

    async def test_ends_as_at_a_terminal(self):
        """Ctrl-C goes to all processes of a terminal: the engine still writes the model."""
        async with self.page("ann") as ann:
            await ann.ask(script={"name": "x", "commands": [{"delete": "lime"}, "commit"]})
        self.assertNotEqual(os.getpgid(self.run_.engine_pid()), os.getpgid(self.run_.process.pid))
        self.run_.process.send_signal(signal.SIGINT)
        self.run_.process.wait(patience(20))
        self.assertNotIn('"lime"', self.run_.model.read_text())

    async def test_names_are_quoted(self):
        with City(self.run_.socket, hand="a\nb\x1b[31m") as city:
            city.ids()
            city._link.socket.sendall(b"\xff\n")
            await asyncio.sleep(0.3)
        self.assertNotIn("\x1b", self.run_.told())
