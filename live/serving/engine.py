"""The engine behind a gateway: its process, its lines, and what of them goes to whom."""
import asyncio
import json
import logging
import re
import secrets
import time
from collections import deque

from .connection import quoted
from .figures import Figures
from .places import Places, dump

KEPT = 16 << 20  # bytes of changes that are kept for those who come back
TICK = 0.02  # seconds at least from one writing of changes to the next
LONG_LINE = 1 << 20  # bytes from which a line is read by a thread
MINE = b'{"hand":"gateway",'
CHANGED = b'{"hand":"gateway","changed":'
MODEL = re.compile(rb'\{("hand":"(?:[^"\\]|\\.)*","id":(?:-?[0-9]+|"(?:[^"\\]|\\.)*")),"model":')
VERSION = re.compile(rb'"version":([0-9]+)\}+\s*$')
log = logging.getLogger("gateway")


class Gateway:
    """One engine, started again where it ends, and the connections that it is passed to."""

    def __init__(self, given):
        self.given, self.connections, self.figures = given, {}, Figures()
        self.process, self.up, self.stopping, self.last_number = None, False, False, 0
        self.lines, self.of_line = 0, {}  # lines that were asked, and the hands of the last of them
        self.epoch = self.places = self.first = None
        self.version = self.saved = 0  # of the engine, and of the file
        self.saves = True  # whether the engine has a file to save to
        self.changes, self.kept = deque(), 0  # (version, line), behind the places
        self.fresh, self.flushed, self.flushing = [], 0.0, None
        self.waiting = {}  # hands that wait -> what they wait for

    def next_number(self):
        self.last_number += 1
        return self.last_number

    # ---- the process

    async def run_engine(self):
        """Starts the engine, again and again."""
        pause = 0.2
        while not self.stopping:
            started = time.monotonic()
            try:
                pipe = asyncio.subprocess.PIPE  # a session of its own: what ends the gateway at a terminal lets it save
                self.process = await asyncio.create_subprocess_exec(
                    *self.given.engine, stdin=pipe, stdout=pipe, start_new_session=True)
            except OSError as error:
                log.error("the engine can't be started: %s", error)
            else:
                self.figures.count("engine_starts")
                await self.listen()
                log.warning("the engine ended with %s", await self.process.wait())
            self.fall()
            pause = 0.2 if time.monotonic() - started > 10 else min(pause * 2, 5)
            if not self.stopping:
                await asyncio.sleep(pause)

    def fall(self):
        """The engine is gone."""
        self.up = False
        self.waiting.clear()
        self.broadcast({"engine": "down"})
        for connection in self.connections.values():
            connection.forget()

    async def listen(self):
        self.epoch, self.lines, self.of_line, self.first = secrets.token_hex(8), 0, {}, None
        self.changes.clear()
        self.fresh.clear()
        self.places, self.kept = None, 0
        rest = []
        while piece := await self.process.stdout.read(1 << 18):
            if b"\n" not in piece:
                rest.append(piece)
                continue
            *lines, last = b"".join([*rest, piece]).split(b"\n")
            rest = [last]
            for line in lines:
                await self.heard(line)
            self.flush_soon()

    async def heard(self, line):
        if line.startswith(CHANGED):
            return self.heard_change(line)
        if line.startswith(MINE) and len(line) > LONG_LINE:
            return self.have(await asyncio.to_thread(Places.of_answer, line))
        try:
            found = MODEL.match(line) if len(line) > LONG_LINE else None  # of a model the beginning is enough
            tree = json.loads(b"{%s,\"model\":null}" % found[1] if found else line)
        except ValueError:
            return log.error("the engine wrote no JSON: %.200r", line)
        if "cityed" in tree:
            self.ready(tree)
        elif tree.get("hand") == "gateway":
            self.heard_mine(tree, line)
        else:
            hand = tree.get("hand") or self.of_line.get(tree.get("error", {}).get("line"), "")
            if to := self.connections.get(hand.partition("/")[0]):
                to.answered(tree, line.decode())

    def ready(self, tree):
        """The first line of the engine."""
        self.first, self.version, self.saved = tree, tree["version"], tree["version"]
        self.tell({"hand": "gateway", "id": "watch", "watch": True})
        self.tell({"hand": "gateway", "id": "model", "model": True})

    def heard_change(self, line):
        self.version, text = int(VERSION.search(line)[1]), line.decode()
        self.figures.count("changes")
        self.changes.append((self.version, text))
        self.kept += len(text)
        self.fresh.append(text)
        while self.places and self.kept > KEPT:  # the oldest becomes part of the places
            version, old = self.changes.popleft()
            self.kept -= len(old)
            if version > self.places.version:
                self.places.fold(old)

    def heard_mine(self, tree, line):
        if "model" in tree:
            self.have(Places.of_answer(line))
        elif "saved" in tree:
            self.saved = tree["saved"]
            self.figures.count("saves")
        elif tree.get("error", {}).get("fault") == "NoOutput":
            self.saves = False
            log.info("the engine has no output, and so nothing is saved but its journal")
        elif "watching" not in tree:
            log.warning("the engine says: %.200r", line)

    def have(self, places):
        """The engine's city is known: people may come."""
        self.places, self.up = places, True
        log.info("the engine is up, with %d objects of version %d", len(places.rows), self.version)
        for connection in list(self.connections.values()):
            connection.send(dump({"engine": "up", "epoch": self.epoch}))
            if connection.watches == "follows":
                self.follow(connection, {})

    def tell(self, tree):
        """A line that nobody waits for."""
        if self.process and self.process.returncode is None:
            self.lines += 1
            try:
                self.process.stdin.write(dump(tree).encode() + b"\n")
            except (ConnectionError, RuntimeError):
                pass

    async def ask(self, line, connection):
        self.lines += 1
        self.figures.count("requests")
        self.of_line[self.lines] = connection.hand
        self.of_line.pop(self.lines - 10_000, None)
        try:
            self.process.stdin.write(line)
            await self.process.stdin.drain()
        except (ConnectionError, RuntimeError):
            pass

    # ---- changes

    def flush_soon(self):
        """Changes are written together: at once, or a tick after those before."""
        if self.fresh and not self.flushing:
            pause = max(0, self.flushed + TICK - time.monotonic())
            self.flushing = asyncio.get_running_loop().call_later(pause, self.flush)

    def flush(self):
        self.flushing, self.flushed = None, time.monotonic()
        if self.fresh:
            text = "\n".join(self.fresh)
            self.fresh.clear()
            for connection in list(self.connections.values()):
                if connection.watches:
                    connection.send(text)

    def follow(self, connection, since):
        """The changes since a version that a page has, or the places and the changes since; then all to come."""
        if self.flushing:
            self.flushing.cancel()
        self.flush()
        connection.watches = "follows"
        if not self.up:
            return connection.send(dump({"engine": "down"}))
        has = since.get("version") if type(since) is dict and since.get("epoch") == self.epoch else None
        first = self.changes[0][0] if self.changes else self.version + 1
        if type(has) is not int or not first - 1 <= has <= self.version:
            connection.send(self.places.told(self.epoch), counts=False)
            has = self.places.version
        for version, text in self.changes:
            if version > has:
                connection.send(text, counts=False)
        connection.send(dump({"followed": self.version}))

    # ---- people

    def broadcast(self, tree):
        for connection in list(self.connections.values()):
            connection.send(dump(tree))

    def tell_people(self):
        self.broadcast({"people": sorted({connection.user for connection in self.connections.values()})})

    def come(self, connection):
        self.connections[connection.hand] = connection
        log.info("%s came, to %s", quoted(connection.hand), connection.may)

    def go(self, connection):
        self.connections.pop(connection.hand, None)
        connection.leave()
        for hand in [it for it in self.waiting if it.partition("/")[0] == connection.hand]:
            del self.waiting[hand]
        log.info("%s went", quoted(connection.hand))
        self.tell_people()

    # ---- now and then

    def in_the_way(self):
        """The hands with open transactions that may be what another waits for."""
        blocked = list(self.waiting.values())
        named = {hand for it in blocked for hand in it.get("for", [])}
        wanted = {it.get("on") for it in blocked}
        for connection in list(self.connections.values()):
            for hand, asked in list(connection.open.items()):
                if hand not in self.waiting and (hand in named or connection.touched.get(hand, set()) & wanted):
                    yield connection, hand, asked

    def abort_the_idle(self, now):
        for connection, hand, asked in self.in_the_way():
            if now - asked > self.given.idle:
                connection.open.pop(hand)
                connection.touched.pop(hand, None)
                self.figures.count("idle_aborts")
                log.warning("%s was still for too long while another waited", quoted(hand))
                self.tell({"hand": hand, "abort": True})

    async def every_second(self):
        """Saves now and then, and aborts what is still for too long in another's way."""
        last = time.monotonic()
        while True:
            await asyncio.sleep(max(0.05, min(1, self.given.idle / 4)))
            now = time.monotonic()
            if self.up and self.saves and self.version != self.saved and now - last >= self.given.save_every > 0:
                last = now
                self.tell({"hand": "gateway", "id": "save", "save": True})
            self.abort_the_idle(now)

    async def stop(self):
        """Lets the engine save and end."""
        self.stopping = True
        if self.process and self.process.returncode is None:
            self.process.stdin.close()
            await self.process.wait()
