#!/usr/bin/env python3
"""One city for many people: a web page and WebSockets before one live engine of cityed.

usage: gateway.py [OPTIONS] -- ENGINE..     such as  gateway.py -- cityed --live --decimals --output M --journal J M
       gateway.py --people FILE --add NAME edit|watch     gives a person a token, and prints it

Starts the engine, again where it ends, and passes it the lines of many people, each under a hand of its own. Numbers
are passed on as they were written. A connection is a WebSocket at /live, or with --socket a Unix socket for programs of
this machine (cityed.py). README.md has how it is kept running, and what is said beyond the program's own lines.
"""
import argparse
import asyncio
import json
import logging
import os
import pwd
import secrets
import signal
import socket
import struct
import sys
from pathlib import Path

DEBIAN = "/usr/bin/python3"
try:
    from aiohttp import WSCloseCode, WSMsgType, web
except ModuleNotFoundError:  # Debian's packages are for Debian's Python, which may not be the first one
    if sys.executable != DEBIAN and not os.environ.get("CITYED_GATEWAY") and os.path.exists(DEBIAN):
        os.execve(DEBIAN, [DEBIAN, *sys.argv], {**os.environ, "CITYED_GATEWAY": "again"})
    sys.exit("gateway.py: python3-aiohttp is missing")

sys.path.insert(0, str(Path(__file__).resolve().parent))
from serving.connection import Connection, quoted  # noqa: E402
from serving.engine import Gateway  # noqa: E402
from serving.places import dump, dumps  # noqa: E402
from serving.rights import RIGHTS, Rights, add_person  # noqa: E402

THREE = Path("/usr/share/javascript/three")
UNKNOWN = 4401  # a WebSocket's end: the token isn't known
HEADERS = {"Content-Security-Policy": "default-src 'self'; img-src 'self' data:; frame-ancestors 'none'; "
           "base-uri 'none'; form-action 'none'", "X-Content-Type-Options": "nosniff", "Referrer-Policy": "no-referrer",
           "Cache-Control": "no-cache", "Cross-Origin-Opener-Policy": "same-origin"}
log = logging.getLogger("gateway")


class Doors:
    """How people come in: by WebSockets with tokens, or by the Unix socket."""

    def __init__(self, gateway, rights):
        self.gateway, self.given, self.rights = gateway, gateway.given, rights

    async def live(self, request):
        """A WebSocket, whose first message has the token."""
        origin = request.headers.get("Origin")
        if origin is not None and origin not in self.given.origin:
            raise web.HTTPForbidden(text="another origin")
        if len(self.gateway.connections) >= self.given.most:
            raise web.HTTPServiceUnavailable(text="too many people")
        ws = web.WebSocketResponse(max_msg_size=self.given.longest, heartbeat=self.given.heartbeat, compress=False)
        await ws.prepare(request)
        person = await self.introduced(ws)
        if person is None:
            await ws.close(code=UNKNOWN, message=b"unknown token")
            return ws
        connection = Connection(self.gateway, *person, ws.send_str, request.transport.abort)
        self.gateway.come(connection)
        self.greet(connection)
        try:
            async for message in ws:
                if message.type == WSMsgType.TEXT:
                    await connection.receive(message.data)
                elif message.type == WSMsgType.BINARY:
                    await ws.close(code=WSCloseCode.UNSUPPORTED_DATA)
        finally:
            self.gateway.go(connection)
        return ws

    async def introduced(self, ws):
        """Name and right of whoever opened a WebSocket, or None."""
        try:
            first = await ws.receive(timeout=10)
            hello = json.loads(first.data) if first.type == WSMsgType.TEXT else None
        except (asyncio.TimeoutError, ValueError, RecursionError):
            return None
        return self.rights.who(str(hello.get("token", ""))) if type(hello) is dict else None

    def greet(self, connection):
        hello = {"user": connection.user, "hand": connection.hand, "may": connection.may}
        connection.send(dump({"hello": hello, "engine": "up" if self.gateway.up else "down"}))
        self.gateway.tell_people()

    async def local(self, reader, writer):
        """The Unix socket: whoever may open it may edit, under the name of the process's user."""
        peer = writer.get_extra_info("socket").getsockopt(socket.SOL_SOCKET, socket.SO_PEERCRED, 12)
        user = struct.unpack("3i", peer)[1]
        try:
            user = pwd.getpwuid(user).pw_name
        except KeyError:
            user = str(user)

        async def write(text):
            writer.write(text.encode() + b"\n")
            await writer.drain()

        connection = Connection(self.gateway, user, "edit", write, writer.transport.abort)
        first, places = self.gateway.first or {"cityed": "", "objects": 0}, self.gateway.places
        frame = {"frame": places.frame} if places else {}
        connection.send(dumps({**first, "version": self.gateway.version, **frame}), counts=False)
        self.gateway.come(connection)
        self.gateway.tell_people()
        try:
            while line := await reader.readline():
                await connection.receive(line.decode())
        except (ValueError, ConnectionError) as error:  # too long, not UTF-8, gone
            log.warning("%s: %s", quoted(connection.hand), error)
        finally:
            self.gateway.go(connection)
            writer.close()


@web.middleware
async def with_headers(request, handler):
    try:
        response = await handler(request)
    except web.HTTPException as error:
        error.headers.update(HEADERS)
        raise
    if not response.prepared:
        response.headers.update(HEADERS)
    return response


def application(gateway, doors):
    """The page, three.js, health and figures."""
    app = web.Application(middlewares=[with_headers])

    async def index(_):
        return web.FileResponse(gateway.given.page / "index.html")

    async def health(_):
        told = {"engine": "up" if gateway.up else "down", "version": gateway.version, "saved": gateway.saved,
                "connections": len(gateway.connections)}
        return web.json_response(told, status=200 if gateway.up else 503)

    async def metrics(_):
        behind = max((connection.size for connection in gateway.connections.values()), default=0)
        now = {"up": int(gateway.up), "version": gateway.version, "saved_version": gateway.saved,
               "connections": len(gateway.connections), "waiting_hands": len(gateway.waiting),
               "most_bytes_behind": behind}
        return web.Response(text=gateway.figures.text(now), headers={"Content-Type": "text/plain; version=0.0.4"})

    app.router.add_get("/", index)
    app.router.add_get("/live", doors.live)
    app.router.add_get("/health", health)
    app.router.add_get("/metrics", metrics)
    if THREE.is_dir():
        app.router.add_static("/three/", THREE)
    app.router.add_static("/", gateway.given.page)
    return app


def rights_of(given):
    """The rights, and the address to tell."""
    address = "http://%s:%d/" % (given.host, given.port)
    if given.people:
        return Rights(given.people), address
    token = secrets.token_urlsafe(24)
    return Rights.of_one(pwd.getpwuid(os.getuid()).pw_name, token), "%s#token=%s" % (address, token)


async def main(given):
    gateway = Gateway(given)
    rights, address = rights_of(given)
    doors = Doors(gateway, rights)
    runner = web.AppRunner(application(gateway, doors), access_log=None)
    await runner.setup()
    await web.TCPSite(runner, given.host, given.port, shutdown_timeout=1).start()
    print(address, file=sys.stderr, flush=True)
    if given.socket:
        Path(given.socket).unlink(missing_ok=True)
        before = os.umask(0o177)
        await asyncio.start_unix_server(doors.local, given.socket, limit=given.longest)
        os.umask(before)
    tasks = [asyncio.create_task(gateway.run_engine()), asyncio.create_task(gateway.every_second())]
    stop = asyncio.Event()
    for number in (signal.SIGINT, signal.SIGTERM):
        asyncio.get_running_loop().add_signal_handler(number, stop.set)
    await stop.wait()
    await gateway.stop()
    for task in tasks:
        task.cancel()
    for connection in list(gateway.connections.values()):
        connection.cut()
    await runner.cleanup()


def options(words=None):
    say = argparse.ArgumentParser(description=__doc__, formatter_class=argparse.RawDescriptionHelpFormatter)
    say.add_argument("--host", default="127.0.0.1", help="the address to listen on; without TLS only 127.0.0.1 is safe")
    say.add_argument("--port", type=int, default=8020)
    say.add_argument("--socket", metavar="PATH", help="a Unix socket for programs of this user")
    say.add_argument("--people", metavar="FILE", help="names, rights, hashes of tokens; without it one token is made")
    say.add_argument("--add", nargs=2, metavar=("NAME", "|".join(RIGHTS)), help="add a person, and print a token")
    say.add_argument("--origin", action="append", default=[], help="an address under which browsers see the page")
    say.add_argument("--page", type=Path, default=Path(__file__).resolve().parent / "page")
    say.add_argument("--save-every", type=float, default=60, metavar="SECONDS", help="0: only when it is asked for")
    say.add_argument("--idle", type=float, default=60, metavar="SECONDS",
                     help="for how long a transaction may be still while another waits for it")
    say.add_argument("--heartbeat", type=float, default=20, metavar="SECONDS",
                     help="how often a browser is asked for a sign of life")
    say.add_argument("--longest", type=int, default=4 << 20, metavar="BYTES", help="of a message")
    say.add_argument("--most", type=int, default=200, metavar="N", help="connections")
    say.add_argument("engine", nargs=argparse.REMAINDER, help="the engine's command line")
    given = say.parse_args(words)
    if given.engine[:1] == ["--"]:
        del given.engine[0]
    if given.add and not given.people:
        say.error("--add needs --people")
    if not given.engine and not given.add:
        say.error("no engine")
    own = {"http://%s:%d" % (host, given.port) for host in (given.host, "localhost", "127.0.0.1")}
    given.origin = set(given.origin) | own
    return given


if __name__ == "__main__":
    GIVEN = options()
    if GIVEN.add:
        try:
            print(add_person(GIVEN.people, *GIVEN.add))
        except (OSError, ValueError) as error:
            sys.exit("gateway.py: %s" % error)
        sys.exit()
    logging.basicConfig(level=logging.INFO, format="%(asctime)s %(message)s")
    asyncio.run(main(GIVEN))
