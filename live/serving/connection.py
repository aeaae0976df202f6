"""One person's window or program at the gateway: what it may ask for, and what waits to be sent to it."""
import asyncio
import json
import logging
import time

from .places import dump, dumps
from cityed import loads  # places has put it on the path; it keeps digits

MOST_UNANSWERED = 64  # requests of one connection; then nothing more is read from it
MOST_HANDS = 16  # hands of one connection
BEHIND = 16 << 20  # bytes that may wait for one connection, beside a city's rows, before it is dropped
READERS = {"look", "ids", "follow", "watch"}
EDITORS = READERS | {"script", "begin", "do", "commit", "abort", "model", "save", "made", "bye"}
LOCKING = ("read", "put", "add", "set", "unset", "reshape", "expect", "delete", "attach", "detach", "parent", "rename",
           "to")  # members of a command whose values are ids
NOT_JSON, NOT_REQUEST, NOT_ALLOWED, NO_ENGINE, ENGINE_ENDED, TOO_SOON = (
    (200, "NotJson", "The message isn't JSON."),
    (201, "NotRequest", "A request is an object, and its id a whole number or a text."),
    (202, "NotAllowed", "You may watch, but not edit."),
    (203, "NoEngine", "The engine isn't there."),
    (204, "EngineEnded", "The engine has ended; it isn't known whether this was done."),
    (205, "TooSoon", "The model that was asked for before isn't sent yet."))
log = logging.getLogger("gateway")


def quoted(name):
    """A name as it is logged."""
    return json.dumps(str(name))


def bad_constant(name):
    raise ValueError(name)


class Connection:
    """`write(text)` is a coroutine that waits for a slow reader; `cut()` ends the connection."""

    def __init__(self, gateway, user, may, write, cut):
        self.gateway, self.user, self.may, self.write, self.cut = gateway, user, may, write, cut
        self.hand = "%s#%d" % (user, gateway.next_number())
        self.hands, self.open, self.touched = set(), {}, {}  # names used; open transactions: when they last asked; ids
        self.waiting, self.size, self.some = [], 0, asyncio.Event()
        self.watches, self.unanswered, self.room = False, {}, asyncio.Event()
        self.long_id, self.is_long_here = None, False  # of a model that was asked for and isn't sent yet
        self.room.set()
        self.task = asyncio.create_task(self.writer())

    # ---- to the person

    def send(self, text, counts=True):
        """Sends a line, or several, some time; who reads too slowly is dropped, and not waited for."""
        self.waiting.append(text)
        self.size += len(text) if counts else 0
        self.some.set()
        if self.size > BEHIND:
            log.warning("%s is too slow, %d bytes behind", quoted(self.hand), self.size)
            self.gateway.figures.count("slow_readers")
            self.waiting.clear()
            self.size = 0
            self.cut()

    async def writer(self):
        while True:
            await self.some.wait()
            self.some.clear()
            texts, self.waiting = self.waiting, []
            sent, has_long = self.size, self.is_long_here
            try:
                if texts:
                    await self.write("\n".join(texts))
            except (ConnectionError, RuntimeError):
                self.cut()
                return
            self.size = max(0, self.size - sent)
            if has_long:
                self.long_id, self.is_long_here = None, False

    def refuse(self, fault, asked=None):
        number, name, message = fault
        self.gateway.figures.count("refused")
        self.send(dump({**(asked or {}), "error": {"fault": name, "message": message, "number": number}}))

    # ---- from the person

    async def receive(self, text):
        """A request: passed to the engine with a hand, or done here."""
        await self.room.wait()
        try:
            tree = json.loads(text, parse_constant=bad_constant)
            if "\\u" in text:  # a lone surrogate isn't UTF-8
                dump(tree).encode()
        except (ValueError, RecursionError):
            return self.refuse(NOT_JSON)
        if type(tree) is not dict or type(tree.get("id")) not in (int, str):  # which come back as they are
            return self.refuse(NOT_REQUEST)
        asked = {"id": tree["id"]}
        kinds = EDITORS & set(tree)
        if not kinds <= (EDITORS if self.may == "edit" else READERS):
            return self.refuse(NOT_ALLOWED, asked)
        if "follow" in tree:  # once: a city is long
            return None if self.watches == "follows" else self.gateway.follow(self, tree["follow"])
        if "watch" in tree:
            self.watches = tree["watch"] is True
            return self.send(dump({**asked, "watching": self.gateway.version if self.watches else False}))
        if not self.gateway.up:
            return self.refuse(NO_ENGINE, asked)
        name = tree.get("hand", "")
        if "model" in tree and self.long_id is not None:
            return self.refuse(TOO_SOON, asked)
        too_many = type(name) is str and len(self.hands | {name}) > MOST_HANDS
        if type(name) is not str or len(name) > 64 or too_many or tree["id"] in self.unanswered:
            return self.refuse(NOT_REQUEST, asked)
        await self.pass_on(text, tree, name)

    async def pass_on(self, text, tree, name):
        hand = self.hand + ("/" + name if name else "")
        try:
            line = self.line_of(text, tree, hand)
        except RecursionError:
            return self.refuse(NOT_JSON, {"id": tree["id"]})
        self.hands.add(name)
        self.note(tree, hand)
        if "model" in tree:
            self.long_id = tree["id"]
        self.unanswered[tree["id"]] = time.monotonic()
        if len(self.unanswered) >= MOST_UNANSWERED:
            self.room.clear()
        await self.gateway.ask(line.encode() + b"\n", self)

    @staticmethod
    def line_of(text, tree, hand):
        """The request with its hand; digits stay as they are."""
        if "hand" in tree:
            return dumps({"hand": hand, **{name: it for name, it in loads(text).items() if name != "hand"}})
        # between the parts of a JSON value alone can a line break stand
        return '{"hand":%s,%s' % (dump(hand), text.strip().replace("\n", " ").replace("\r", " ")[1:])

    def note(self, tree, hand):
        """What a hand with an open transaction touches, and when it last asked."""
        if "begin" in tree:
            self.open[hand], self.touched[hand] = time.monotonic(), set()
        elif hand in self.open:
            self.open[hand] = time.monotonic()
            if type(tree.get("do")) is dict:
                self.touched[hand] |= {it for it in map(tree["do"].get, LOCKING) if type(it) is str}

    def answered(self, tree, text):
        """An answer of the engine to this connection, which is sent. A model may be long, one at a time."""
        hand = tree.get("hand")
        self.send(text, counts="model" not in tree)
        if "model" in tree:
            self.is_long_here = True
        elif tree.get("id") == self.long_id and "waits" not in tree:
            self.long_id = None
        if "ended" in tree or "died" in tree:
            self.open.pop(hand, None)
            self.touched.pop(hand, None)
        if "waits" in tree:
            self.gateway.waiting[hand] = tree["waits"]
            return
        self.gateway.waiting.pop(hand, None)
        asked = self.unanswered.pop(tree.get("id"), None)
        if asked is not None:
            self.gateway.figures.answered(time.monotonic() - asked)
            self.room.set()

    def forget(self):
        """The engine is gone, and with it the answers."""
        for one in self.unanswered:
            self.refuse(ENGINE_ENDED, {"id": one})
        self.unanswered, self.open, self.touched, self.hands = {}, {}, {}, set()
        self.long_id, self.is_long_here = None, False
        self.room.set()

    def leave(self):
        self.task.cancel()
        self.room.set()
        for name in self.hands:
            self.gateway.tell({"hand": self.hand + ("/" + name if name else ""), "bye": True})
