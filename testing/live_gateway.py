#!/usr/bin/env python3
"""Tries live/gateway.py: rights, origins, limits, garbage, slow readers, resuming, idle hands, a killed engine.

    python3 testing/live_gateway.py PROGRAM [--live WORDS] [TEST ..]

WORDS start live editing, and are "PROGRAM --live" unless they are given. Needs python3-aiohttp; without it this says so
and ends with status 0. All sockets are on 127.0.0.1 or in a folder that is removed.
"""
import asyncio
import json
import random
import socket
import sys
import time
import unittest

from live_running import aiohttp, asked, patience
from live_ends import Engines, Gateways, Saves  # noqa: F401 - the first and the last are run from here


class People(Gateways):
    async def test_two_people(self):
        async with self.page("ann") as ann, self.page("ben") as ben:
            hello = await ann.until(lambda it: "hello" in it)
            self.assertEqual((hello["hello"]["user"], hello["hello"]["may"], hello["engine"]), ("ann", "edit", "up"))
            await ben.until(lambda it: it.get("people") == ["ann", "ben"])
            await ben.send(follow={})
            city = await ben.until(lambda it: "city" in it)
            rows = {row[0]: row[1:] for row in city["city"]["objects"]}
            self.assertEqual((city["version"], rows["garden"]), (0, ["LandUse", [0, 6000, 0, 8000, 12000, 0]]))
            self.assertEqual(rows["mill-lane-1-shed"][2], ["mill-lane-1"])
            found = await ben.ask(look=["garden", "none"])
            self.assertEqual(found["look"]["garden"]["object"]["attributes"]["area"], "48.0")
            self.assertIsNone(found["look"]["none"])
            self.assertEqual(await ann.set(use="orchard"), "committed")
            change = (await ben.until(lambda it: "changed" in it))["changed"]
            self.assertEqual(change["by"].split("#")[0], "ann")
            self.assertEqual(change["objects"]["garden"]["object"]["attributes"]["use"], "orchard")

    async def test_resume(self):
        async with self.page("ann") as ann:
            await ann.send(follow={})
            epoch = (await ann.until(lambda it: "epoch" in it))["epoch"]
            await ann.until(lambda it: "followed" in it)
            for k in range(5):
                await ann.set(n=k)
            async with self.page("ben") as ben:
                await ben.send(follow={"epoch": epoch, "version": 3})
                await ben.until(lambda it: "followed" in it)
                self.assertEqual([it["changed"]["version"] for it in ben.inbox if "changed" in it], [4, 5])
                self.assertFalse([it for it in ben.inbox if "city" in it])
            for wrong in ({"epoch": "other", "version": 3}, {"epoch": epoch, "version": 77}, 3, None):
                async with self.page("ben") as ben:
                    await ben.send(follow=wrong)
                    await ben.until(lambda it: "followed" in it)
                    told = [it.get("changed", it)["version"] for it in ben.inbox if "changed" in it or "city" in it]
                    self.assertEqual(told, [0, 1, 2, 3, 4, 5])

    async def test_who_may(self):
        async with self.page("eve") as eve:
            answer = await eve.ask(script={"name": "x", "commands": [{"delete": "lime"}, "commit"]})
            self.assertEqual(answer["error"]["fault"], "NotAllowed")
            for more in ({"begin": "x"}, {"do": {"read": "lime"}}, {"save": True}, {"commit": True, "look": "lime"}):
                self.assertEqual((await eve.ask(**more))["error"]["fault"], "NotAllowed")
            self.assertEqual((await eve.ask(look="lime"))["version"], 0)
        for token in ("no such token", self.run_.tokens["ann"][:-1], " "):
            async with self.page("ann", token) as nobody:
                with self.assertRaises(EOFError):
                    await nobody.until(lambda it: True)
                self.assertEqual(nobody.ws.close_code, 4401)
        self.assertNotIn(self.run_.tokens["ann"], self.run_.people.read_text())
        self.assertEqual(self.run_.people.stat().st_mode & 0o777, 0o600)

    async def test_rights_change(self):
        kept = [it for it in self.run_.people.read_text().splitlines(True) if "ben" not in it]
        self.run_.people.write_text("".join(kept))
        async with self.page("ben") as nobody:
            with self.assertRaises(EOFError):
                await nobody.until(lambda it: True)
        async with self.page("ann") as ann:
            await ann.until(lambda it: "hello" in it)

    async def test_origins(self):
        for origin in ("http://evil.example", "null", "http://localhost:1", "https://localhost:%d" % self.run_.port):
            with self.assertRaises(aiohttp.WSServerHandshakeError) as caught:
                async with self.page("ann", headers={"Origin": origin}):
                    pass
            self.assertEqual(caught.exception.status, 403)
        async with self.page("ann", headers={"Origin": "http://localhost:%d" % self.run_.port}) as ann:
            await ann.until(lambda it: "hello" in it)

    async def test_nobody_speaks_for_another(self):
        async with self.page("ann") as ann, self.page("ben") as ben:
            await ben.until(lambda it: "hello" in it)
            await ann.ws.send_str('{"id":1,"hand":"x","look":"lime"}\n{"hand":"gateway","id":"save","save":true}')
            self.assertEqual((await ann.until(lambda it: "error" in it))["error"]["fault"], "NotJson")
            script = '{"name":"x","commands":[{"set":"garden","attributes":{"k":0.250}},"commit"]}'
            await ann.ws.send_str('{"id":2,\n"h\\u0061nd":"ben#2",\n"script":%s}' % script)
            end = await ann.until(lambda it: it.get("id") == 2)
            self.assertRegex(end["hand"], "^ann#[0-9]+/ben#2$")
            found = await ann.ask(look="garden")
            self.assertEqual(found["look"]["object"]["attributes"]["k"], "0.250")

    async def test_figures(self):
        async with self.page("ann") as ann:
            await ann.set(n=1)
            text = self.run_.get("/metrics")
            for line in ("cityed_up 1", "cityed_version 1", "cityed_changes_total 1", "cityed_connections 1",
                         'cityed_answer_seconds_bucket{le="+Inf"} 1', "cityed_answer_seconds_count 1"):
                self.assertIn(line + "\n", text)
            self.assertNotIn("ann", text)
            self.assertEqual(self.run_.health()["version"], 1)


class Limits(Gateways):
    async def test_garbage(self):
        rng = random.Random(1)
        kinds = ['{"id":3,"look":"\\ud800"}', '{"id":3,"look":NaN}', "[]", "{" * 5000, '{"id":[3],"look":"x"}',
                 '{"look":"x"}', "", "null", '{"id":1}', '{"id":1,"look":1}', '{"id":1,"script":3}', '{"id":1,"do":{}}',
                 '{"id":1,"hand":3,"ids":true}',
                 '{"id":1,"look":"a","look":"b"}', '{"id":1,"look":"x","fly":1}', '{"id":1,"commit":true,"begin":"x"}',
                 '{"id":1,"bye":true}', '{"id":1,"abort":true}', '{"id":4,"look":%s1%s}' % ("[" * 300, "]" * 300)]

        async def rubbish(page, rest):
            for n in range(rest):
                text = rng.choice(kinds)
                if n % 3 == 0:
                    text = "".join(rng.choice('",[{}\\\n\0A\U0001F600') for _ in range(rng.randrange(40)))
                await page.ws.send_str(text.replace('"id":1', '"id":%d' % (100 + n), 1))
                if n % 50 == 0:
                    page.inbox.clear()
                    await page.ask(look="lime")

        async with self.page("ann") as ann, self.page("ben") as ben, self.page("ben") as other:
            commits = 0

            async def edits():
                nonlocal commits
                for k in range(200):
                    self.assertEqual(await ann.set(n=k), "committed")
                    commits += 1
            await asyncio.gather(rubbish(ben, 5000), rubbish(other, 5000), edits())
            self.assertEqual(commits, 200)
            found = await ann.ask(look="garden")
            self.assertEqual((found["version"], found["look"]["object"]["attributes"]["n"]), (200, 199))
        self.assertEqual(self.run_.health()["engine"], "up")

    async def test_too_long(self):
        async with self.page("ann") as ann, self.page("ben") as ben:
            with self.assertRaises((EOFError, OSError)):  # it is closed, or cut while it still sends
                await ann.ws.send_str("x" * ((4 << 20) + 1))
                await ann.until(lambda it: False)
            await ben.ws.send_bytes(b"{}")
            with self.assertRaises(EOFError):
                await ben.until(lambda it: False)
            self.assertEqual(ben.ws.close_code, 1003)

    async def test_flood(self):
        """One who asks without end for answers that he doesn't read is held back, and others aren't."""
        async with self.page("ben") as ben, self.page("ann") as ann:
            async def flood():
                for n in range(20_000):
                    await ben.ws.send_str('{"id":%d,"ids":true}' % n)
            task = asyncio.create_task(flood())
            longest = 0
            for k in range(50):
                started = time.monotonic()
                self.assertEqual(await ann.set(n=k), "committed")
                longest = max(longest, time.monotonic() - started)
            self.assertLess(longest, patience(2))
            task.cancel()

    async def test_slow_reader(self):
        async with self.page("ben") as slow, self.page("ann") as ann:
            await slow.send(follow={})
            await slow.until(lambda it: "followed" in it)
            slow.ws._response.connection.transport.pause_reading()
            big = "x" * 300_000
            longest = 0
            for k in range(90):
                started = time.monotonic()
                self.assertEqual(await ann.set(big=big + str(k)), "committed")
                longest = max(longest, time.monotonic() - started)
            self.assertLess(longest, patience(2))
            for _ in range(100):
                if self.run_.health()["connections"] == 1:
                    break
                await asyncio.sleep(0.05)
            self.assertEqual(self.run_.health()["connections"], 1)
            slow.ws._timeout = 0.1

    async def test_cut_connections(self):
        """Sockets that go at any moment leave nothing behind."""
        rng = random.Random(2)
        for n in range(60):
            async with self.page("ben") as ben:
                for _ in range(rng.randrange(4)):
                    await ben.send(**rng.choice([
                        {"begin": "x"}, {"do": {"set": "garden", "attributes": {"x": n}}}, {"follow": {}},
                        {"script": {"name": "s", "commands": [{"read": "garden"}, "commit"]}}]))
                if rng.random() < 0.5:
                    ben.ws._response.connection.transport.abort()
        async with self.page("ann") as ann:
            self.assertEqual(await ann.set(n=1), "committed")
            await asyncio.sleep(0.2)
            self.assertEqual((self.run_.health()["connections"], self.run_.health()["engine"]), (1, "up"))


class HalfOpen(Gateways):
    options = ("--heartbeat", "1")

    async def test_half_open(self):
        """One whose machine has gone: no sign of life, and no end of the connection either."""
        async with self.page("ann") as ann:
            await ann.until(lambda it: "hello" in it)
            silent = socket.create_connection(("127.0.0.1", self.run_.port))
            silent.sendall(b"GET /live HTTP/1.1\r\nHost: 127.0.0.1\r\nUpgrade: websocket\r\nConnection: Upgrade\r\n"
                           b"Sec-WebSocket-Version: 13\r\nSec-WebSocket-Key: AAAAAAAAAAAAAAAAAAAAAA==\r\n\r\n")
            token = json.dumps({"token": self.run_.tokens["ben"]}).encode()
            silent.sendall(bytes([0x81, 0x80 | len(token)]) + bytes(4) + token)
            await ann.until(lambda it: it.get("people") == ["ann", "ben"])
            await ann.until(lambda it: it.get("people") == ["ann"])
            silent.close()


class Locks(Gateways):
    async def test_locks_go_with_the_person(self):
        async with self.page("ann") as ann:
            async with self.page("ben") as ben:
                await ben.ask(begin="b")
                await ben.ask(do={"set": "garden", "attributes": {"x": 1}})
                commands = [{"set": "garden", "attributes": {"x": 2}}, "commit"]
                number = await ann.send(script={"name": "a", "commands": commands})
                waits = (await ann.until(lambda it: "waits" in it))["waits"]
                self.assertEqual((waits["on"], waits["for"][0].split("#")[0]), ("garden", "ben"))
            self.assertEqual((await ann.until(lambda it: it.get("id") == number))["ended"]["outcome"], "committed")

    async def test_idle(self):
        async with self.page("ann") as ann, self.page("ben") as ben:
            await ben.ask(begin="b")
            await ben.ask(do={"set": "garden", "attributes": {"x": 1}})
            await asyncio.sleep(1.6)  # longer than idle: nobody waits, so nothing is aborted
            self.assertFalse([it for it in ben.inbox if "ended" in it])
            self.assertEqual(await ann.set(x=3), "committed")
            self.assertEqual((await ben.until(lambda it: "ended" in it))["ended"]["outcome"], "aborted")
            self.assertIn("cityed_idle_aborts_total 1\n", self.run_.get("/metrics"))


def main():
    given = asked(__doc__)
    unittest.main(argv=[sys.argv[0], *given.tests])


if __name__ == "__main__":
    main()
