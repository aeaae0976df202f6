"""A gateway with an engine on a copy of a model, and a WebSocket to it as the page has it: for the trials of live/."""
import argparse
import asyncio
import json
import os
import shlex
import shutil
import signal
import socket
import subprocess
import sys
import tempfile
import time
from pathlib import Path
from urllib.error import HTTPError
from urllib.request import ProxyHandler, build_opener

ROOT = Path(__file__).resolve().parent.parent
DEBIAN = "/usr/bin/python3"
try:
    import aiohttp
except ModuleNotFoundError:  # Debian's packages are for Debian's Python
    looks = [DEBIAN, "-c", "import aiohttp"]
    if sys.executable != DEBIAN and subprocess.run(looks, stderr=subprocess.DEVNULL).returncode == 0:
        os.execv(DEBIAN, [DEBIAN, *sys.argv])
    sys.exit(print("skipped: python3-aiohttp is missing"))
sys.path.insert(0, str(ROOT / "live"))
import cityed  # noqa: E402, F401 - the trials take it from here

TILE = ROOT / "examples/tile.city.json"
RIGHTS = {"ann": "edit", "ben": "edit", "eve": "watch"}
DIRECT = build_opener(ProxyHandler({}))
GIVEN = argparse.Namespace(live="cityed --live")


def asked(text, **options):
    """What the command line of a trial asks for, with these further options; GIVEN then says how live editing is started."""
    say = argparse.ArgumentParser(description=text, formatter_class=argparse.RawDescriptionHelpFormatter)
    say.add_argument("program")
    say.add_argument("tests", nargs="*")
    say.add_argument("--live", help="how live editing is started")
    for name, metavar in options.items():
        say.add_argument("--" + name, metavar=metavar)
    given = say.parse_intermixed_args()
    GIVEN.live = given.live or shlex.join([os.path.abspath(given.program), "--live"])
    return given


def patience(seconds):
    """So many seconds, and as many times more as the machine has more to do than it has processors."""
    return seconds * max(1, os.getloadavg()[0] / os.cpu_count())


def free_port():
    with socket.socket() as it:
        it.bind(("127.0.0.1", 0))
        return it.getsockname()[1]


class Running:
    """A gateway with an engine on a copy of a model. Ann and Ben may edit, Eve may watch."""

    def __init__(self, model=TILE, options=(), journal=True, live=None, wait=10):
        self.folder = tempfile.TemporaryDirectory()
        self.path = Path(self.folder.name)
        self.model, self.people = self.path / "model.city.json", self.path / "people"
        shutil.copy(model, self.model)
        gateway = ROOT / "live/gateway.py"
        self.tokens = {}
        for name, right in RIGHTS.items():
            words = [sys.executable, gateway, "--people", self.people, "--add", name, right]
            self.tokens[name] = subprocess.run(words, stdout=subprocess.PIPE, text=True, check=True).stdout.strip()
        self.port = free_port()
        self.socket = "unix:%s" % (self.path / "sock")
        engine = [*shlex.split(live or GIVEN.live), "--decimals", "--output", self.model]
        engine += ["--journal", self.path / "journal"] if journal else []
        doors = ["--port", self.port, "--people", self.people, "--socket", self.path / "sock"]
        self.words = [sys.executable, gateway, *doors, *options, "--", *engine, self.model]
        self.log = open(self.path / "log", "wb")
        self.start()
        until = time.monotonic() + patience(wait)
        while self.health().get("engine") != "up":
            if time.monotonic() > until or self.process.poll() is not None:
                raise AssertionError("it didn't start: " + self.close()[-2000:])
            time.sleep(0.05)

    def start(self):
        self.process = subprocess.Popen([str(it) for it in self.words], stderr=self.log)

    def get(self, path):
        with DIRECT.open("http://127.0.0.1:%d%s" % (self.port, path), timeout=patience(5)) as answer:
            return answer.read().decode()

    def health(self):
        try:
            try:
                return json.loads(self.get("/health"))
            except HTTPError as error:  # the engine is down
                return json.load(error)
        except OSError:
            return {}

    def engine_pid(self):
        found = subprocess.run(["ps", "-o", "pid=", "--ppid", str(self.process.pid)], stdout=subprocess.PIPE, text=True)
        return int(found.stdout.split()[0])

    def told(self):
        self.log.flush()
        return (self.path / "log").read_text()

    def close(self):
        """What it logged."""
        self.process.send_signal(signal.SIGTERM)
        try:
            self.process.wait(patience(60))
        except subprocess.TimeoutExpired:
            self.process.kill()
            self.process.wait()
            raise
        text = self.told()
        self.log.close()
        self.folder.cleanup()
        return text


class Page:
    """A WebSocket as the page has it."""

    def __init__(self, running, who, token=None, **more):
        self.url, self.token, self.more = "ws://127.0.0.1:%d/live" % running.port, token or running.tokens[who], more
        self.inbox, self.number = [], 0

    async def __aenter__(self):
        self.session = aiohttp.ClientSession()
        try:
            self.ws = await self.session.ws_connect(self.url, max_msg_size=0, **self.more)
        except aiohttp.WSServerHandshakeError:
            await self.session.close()
            raise
        await self.ws.send_str(json.dumps({"token": self.token}))
        return self

    async def __aexit__(self, *_):
        await self.ws.close()
        await self.session.close()

    async def until(self, wanted, seconds=10):
        """The first line that `wanted` holds of; those before are left in `inbox`."""
        async def find():
            looked = 0
            while True:
                for k in range(looked, len(self.inbox)):
                    if wanted(self.inbox[k]):
                        return self.inbox.pop(k)
                looked = len(self.inbox)
                message = await self.ws.receive()
                if message.type != aiohttp.WSMsgType.TEXT:
                    raise EOFError(str(message))
                self.inbox += [json.loads(x, parse_float=str) for x in message.data.split("\n")]
        return await asyncio.wait_for(find(), patience(seconds))

    async def send(self, **members):
        self.number += 1
        await self.ws.send_str(json.dumps({"id": self.number, **members}))
        return self.number

    async def ask(self, **members):
        number = await self.send(**members)
        return await self.until(lambda it: it.get("id") == number and "waits" not in it)

    async def set(self, id="garden", **attributes):
        commands = [{"set": id, "attributes": attributes}, "commit"]
        return (await self.ask(script={"name": "set", "commands": commands})).get("ended", {}).get("outcome")
