#!/usr/bin/env python3
"""Times many people at once: 50 clients through the gateway, each at 20 edits a second, for half a minute.

    python3 bench/live_people.py PROGRAM [--live WORDS] [--clients N] [--rate N] [--seconds N] [--processes N]
        [--journal]

Each client follows all changes and edits an object at its rate, whether or not its last edit was answered. Told are how
long an edit took until its answer, and until another client had its change; what was lost; and the processor's share of
the gateway and of the engine, with the machine's load. The status is 1 if an edit was lost or refused, or a change
wasn't seen. Needs python3-aiohttp; without it this says so and ends with status 0.
"""
import argparse
import asyncio
import json
import multiprocessing
import os
import random
import shlex
import sys
import tempfile
import time
from pathlib import Path

sys.path.insert(0, str(Path(__file__).resolve().parent.parent / "testing"))
from live_running import GIVEN, Running, aiohttp  # noqa: E402
from live_town import write_town  # noqa: E402


class Client:
    """One person: what was sent, when it was answered, and when changes were seen."""

    def __init__(self, number, url, token, given, ids):
        self.url, self.token, self.given, self.ids = url, token, given, ids
        self.rng = random.Random(number)
        self.sent, self.answers, self.seen, self.outcomes, self.changes, self.size = {}, [], [], {}, 0, 0

    async def listen(self, ws):
        async for message in ws:
            now = time.monotonic()
            self.size += len(message.data)
            for line in message.data.split("\n"):
                if ',"changed":' in line[:60]:
                    self.changes += 1
                    at = line.find('"at":"')
                    if at > 0:
                        self.seen.append(now - float(line[at + 6:line.index('"', at + 6)]))
                elif '"id":' in line[:60]:
                    self.answer(json.loads(line), now)

    def answer(self, tree, now):
        if "waits" not in tree and tree.get("id") in self.sent:
            self.answers.append(now - self.sent.pop(tree["id"]))
            outcome = tree.get("ended", {}).get("outcome") or tree.get("error", {}).get("fault", "?")
            self.outcomes[outcome] = self.outcomes.get(outcome, 0) + 1

    async def run(self, start):
        async with aiohttp.ClientSession() as session, session.ws_connect(self.url, max_msg_size=0) as ws:
            await ws.send_str(json.dumps({"token": self.token}))
            await ws.send_str('{"id":0,"follow":{}}')
            task = asyncio.create_task(self.listen(ws))
            await self.edit(ws, start)
            until = time.monotonic() + 30
            while self.sent and time.monotonic() < until:
                await asyncio.sleep(0.05)
            await asyncio.sleep(1)
            task.cancel()
        return self

    async def edit(self, ws, start):
        given, end, n = self.given, start + self.given.seconds, 0
        at = start + self.rng.random() / given.rate
        while at < end:
            await asyncio.sleep(max(0, at - time.monotonic()))
            at += 1 / given.rate
            n += 1
            one, self.sent[n] = self.rng.choice(self.ids), time.monotonic()
            attributes = {"n": n, "at": "%.6f" % self.sent[n]}
            commands = [{"expect": one, "attributes": {}}, {"set": one, "attributes": attributes}, "commit"]
            await ws.send_str(json.dumps({"id": n, "script": {"name": "load", "commands": commands}}))


def work(numbers, url, token, given, ids, start, pipe):
    """Some of the clients, in a process of their own."""
    async def all_():
        clients = [Client(n, url, token, given, ids) for n in numbers]
        return await asyncio.gather(*(it.run(start) for it in clients))
    pipe.send([(it.answers, it.seen, it.outcomes, it.changes, it.size, len(it.sent)) for it in asyncio.run(all_())])


def ticks(pid):
    fields = Path("/proc/%d/stat" % pid).read_text().rsplit(")", 1)[1].split()
    return (int(fields[11]) + int(fields[12])) / os.sysconf("SC_CLK_TCK")


def percent(times, part):
    return 1000 * times[min(len(times) - 1, int(len(times) * part))]


def measured(running, given, ids):
    """The clients' figures, and the shares of gateway and engine."""
    url, token, start = "ws://127.0.0.1:%d/live" % running.port, running.tokens["ann"], time.monotonic() + 4
    pipes, workers = [], []
    for k in range(given.processes):
        here, there = multiprocessing.Pipe()
        pipes.append(here)
        some = range(k, given.clients, given.processes)
        workers.append(multiprocessing.Process(target=work, args=(some, url, token, given, ids, start, there)))
        workers[-1].start()
    pids = running.process.pid, running.engine_pid()
    time.sleep(max(0, start - time.monotonic()))
    before = [ticks(pid) for pid in pids]
    time.sleep(given.seconds)
    shares = [100 * (ticks(pid) - old) / given.seconds for pid, old in zip(pids, before)]
    rows = [row for pipe in pipes for row in pipe.recv()]
    for it in workers:
        it.join()
    return rows, shares


def told(rows, shares, given):
    """Prints the figures, and says whether nothing was lost."""
    outcomes = {}
    for row in rows:
        for name, some in row[2].items():
            outcomes[name] = outcomes.get(name, 0) + some
    committed, lost = outcomes.get("committed", 0), sum(row[5] for row in rows)
    print("%d clients, %g edits a second each, %g s: %s, %d without an answer; load of the machine %.1f" % (
        given.clients, given.rate, given.seconds, outcomes, lost, os.getloadavg()[0]))
    for k, name in enumerate(("answered", "seen")):
        times = sorted(it for row in rows for it in row[k])
        parts = [percent(times, part) for part in (0.5, 0.9, 0.99, 1)]
        print("%-9s p50 %.1f ms, p90 %.1f, p99 %.1f, longest %.1f" % (name, *parts))
    changes = [row[3] for row in rows]
    print("changes that a client saw: %d to %d of %d; %.1f MB/s out of the gateway" % (
        min(changes), max(changes), committed, sum(row[4] for row in rows) / given.seconds / 1e6))
    print("processor: gateway %.0f %% of a core, engine %.0f %%" % tuple(shares))
    return not lost and set(outcomes) == {"committed"} and min(changes) == committed


def main():
    say = argparse.ArgumentParser(description=__doc__, formatter_class=argparse.RawDescriptionHelpFormatter)
    say.add_argument("program")
    say.add_argument("--live", help="how live editing is started")
    say.add_argument("--clients", type=int, default=50)
    say.add_argument("--rate", type=float, default=20)
    say.add_argument("--seconds", type=float, default=30)
    say.add_argument("--processes", type=int, default=5)
    say.add_argument("--journal", action="store_true")
    given = say.parse_args()
    GIVEN.live = given.live or shlex.join([os.path.abspath(given.program), "--live"])
    with tempfile.TemporaryDirectory() as folder:
        model = Path(folder) / "town.city.json"
        write_town(model)
        ids = [id for id, it in json.loads(model.read_text())["CityObjects"].items() if it["type"] == "Building"]
        running = Running(model, options=["--save-every", "0"], journal=given.journal)
        try:
            good = told(*measured(running, given, ids), given)
        finally:
            log = running.close()
            if "too slow" in log:
                print("dropped connections: %d" % log.count("too slow"))
    sys.exit(not good)


if __name__ == "__main__":
    main()
