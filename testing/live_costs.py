#!/usr/bin/env python3
"""Counts the processor instructions of a request of live editing, and holds them against limits.

    python3 testing/live_costs.py CITY_SCENARIOS

The program is that of unproved.py, which keeps the functions whole that are counted, by valgrind's callgrind. A set by
a script may cost Hands::handle so many times the same set in a run by one worker: from the read texts to the ends, the
report and the model not yet written. What twice as many scripts take more is counted, so that the start and the end of
a run cancel. A request of each kind is counted at a size and at four times the size: of the objects, of the hands with
an idle transaction, of those that wait for other objects, and of the transactions that ended before. It may cost hardly
more. live_engine.py foretells all answers, and city_scenarios has to give the same ones. Prints a line for each kind,
and ends with status 1 if a limit is broken. Python 3 and valgrind.
"""

import glob
import hashlib
import json
import os
import re
import shutil
import subprocess
import sys
import tempfile

from json_tree import print_tree
from live_engine import Engine
from random_runs import HEAD

HANDLE = "city_live::hands::Hands::handle::<*"
# It gives the number that stands for the name of HANDLE.
NAMED = re.compile(r"c?fn=(\(\d+\)) city_live::hands::Hands::handle::<\S*$")
RUN = "city_scheduler::in_turn::*run_each"
MOST_OF_A_SET = 1.3
MOST_OF_A_SIZE = 1.1
TIMES = 4  # a size, and so many times that size
HANDLED = 5  # so often city_scenarios handles the requests of a session: twice one by one, and in three kinds of lists
SCRIPTS = 100  # the scripts whose sets are counted
SETS = (1, 40)  # the sets of a script
ROUNDS = 40  # how often each kind of request is counted at a size
ROADS = 1_000
# The objects; hands with a transaction that has added one; hands that wait for such a one; ended transactions.
FEW = {"objects": ROADS, "idle hands": 200, "hands that wait": 200, "ended transactions": 200}


class Wrong(Exception):
    """A program has ended otherwise than it should."""


def spread(kind, number):
    """A name of its own for each number of a kind. The names of all kinds stand mixed in the order of their bytes."""
    return hashlib.sha256(f"{kind} {number}".encode()).hexdigest()[:12]


def document(objects):
    road = lambda number: {"type": "Road", "attributes": {"length": number, "name": "road"}}
    return json.dumps({**HEAD, "CityObjects": {spread("road", at): road(at) for at in range(objects)}, "vertices": []})


def script(number, sets):
    """A script of so many sets of one attribute, each of another object."""
    roads = [spread("road", (number * sets + at) % ROADS) for at in range(sets)]
    return {"name": f"s{number:06}", "commands": [*[set_length(road, number) for road in roads], "commit"]}


def set_length(road, length):
    return {"set": road, "attributes": {"length": length}}


class Session:
    """Requests to an engine of live editing, with the answers that are foretold."""

    def __init__(self, objects):
        self.document, self.lines = document(objects), []
        self.engine = Engine(self.document.encode())

    def ask(self, hand, request):
        tag = f"{len(self.lines):06}"
        said = request if isinstance(request, str) else print_tree(request)
        answers = self.engine.handle(hand, tag, said)
        self.lines.append(f"{hand}/{tag} {said} -> {'; '.join(answers)}")

    def scenario(self):
        return "\n".join(["let the city", self.document, "", "Requests", "live", "$the city", "----", *self.lines, ""])


class Counted:
    """The program, and a folder for what it takes."""

    def __init__(self, scenarios, folder):
        self.scenarios, self.folder = os.path.abspath(scenarios), folder

    def written(self, name, text):
        path = os.path.join(self.folder, name)
        with open(path, "w", encoding="utf-8") as file:
            file.write(text)
        return path

    def callgrind(self, option, text, status):
        """Plays a file of scenarios, and returns the name of what callgrind writes, and how much it has counted."""
        out = os.path.join(self.folder, "parts")
        words = ["valgrind", "--tool=callgrind", f"--callgrind-out-file={out}", option, self.scenarios]
        ran = subprocess.run(
            [*words, self.written("played.txt", text)], stdin=subprocess.DEVNULL, capture_output=True, timeout=600
        )
        if ran.returncode != status:
            raise Wrong(f"status {ran.returncode}", ran.stdout.decode()[:2000], ran.stderr.decode()[-500:])
        return out, int(re.search(rb"Collected : (\d+)", ran.stderr)[1])

    def of_run(self, scripts):
        """The instructions by which one worker brings these scripts to their ends."""
        texts = ["let the city", document(ROADS), "", "let the scripts", json.dumps(scripts), ""]
        text = "\n".join([*texts, "A run", "crew 1x0", "$the city", "$the scripts", "----", "nothing", ""])
        return self.callgrind(f"--toggle-collect={RUN}", text, 1)[1]

    def of_session(self, session):
        """The instructions of all requests of a session, on the average of all times that they are handled."""
        return self.callgrind(f"--toggle-collect={HANDLE}", session.scenario(), 0)[1] / HANDLED

    def of_each(self, session):
        """The instructions of each request of a session."""
        out, _ = self.callgrind(f"--dump-before={HANDLE}", session.scenario(), 0)
        parts = [*[f"{out}.{number}" for number in range(2, len(session.lines) + 1)], out]
        counts = [of_part(path) for path in parts]
        for path in glob.glob(out + "*"):
            os.remove(path)
        return counts


def of_part(path):
    """The instructions of the one request in a part of callgrind's output."""
    handle, found = None, []
    with open(path, encoding="utf-8", errors="replace") as file:
        for line in file:
            if named := NAMED.match(line):
                handle = named[1]
            if handle is not None and line.startswith(f"cfn={handle}"):
                calls, cost = next(file), next(file)
                found.append(int(cost.split()[-1]))
    if len(found) != 1:
        raise Wrong(f"{len(found)} requests in a part of callgrind's output")
    return found[0]


def say(right, told):
    print(f"{'' if right else 'WRONG: '}{told}", flush=True)
    return right


def sets_are_cheap(program, sets):
    """Whether a set by a script costs the engine little more than a run without hands."""
    batch, live = [], []
    for count in (SCRIPTS, 2 * SCRIPTS):
        scripts = [script(number, sets) for number in range(count)]
        session = Session(ROADS)
        for it in scripts:
            session.ask("me", "script " + print_tree(it))
        batch.append(program.of_run(scripts))
        live.append(program.of_session(session))
    run, handled = ((last - first) / (SCRIPTS * sets) for first, last in (batch, live))
    if not (run and handled):
        raise Wrong(f"{run} instructions of a set are counted in a run, and {handled} by a hand")
    told = f"a set by a script of {sets}: {run:,.0f} instructions in a run, {handled:,.0f} by a hand"
    return say(handled <= MOST_OF_A_SET * run, f"{told}, {handled / run:.3f} times")


def prepared(sizes):
    """A session of these sizes, before what is counted."""
    session = Session(sizes["objects"])
    for number in range(sizes["ended transactions"]):
        session.ask("before", "script " + print_tree(script(number, 1)))
    for number in range(sizes["hands that wait"]):
        older, younger, name = (spread(kind, number) for kind in ("older hand", "younger hand", "waited for"))
        session.ask(older, "begin wait")
        session.ask(younger, "begin hold")
        session.ask(younger, {"add": name, "object": {"type": "Road"}})
        session.ask(older, {"read": name})
    for number in range(sizes["idle hands"]):
        hand = spread("idle hand", number)
        session.ask(hand, "begin idle")
        session.ask(hand, {"add": spread("written", number), "object": {"type": "Road"}})
    return session


def requests(number):
    """A round of requests of a hand, each with its kind; what has none isn't counted."""
    one, two, three = (spread("road", 3 * number + at) for at in range(3))
    yield "begin", "begin edits"
    yield "set", set_length(one, number)
    yield "read", {"read": two}
    yield "commit", "commit"
    yield None, "begin edits"
    yield None, set_length(two, number)
    yield "abort", "abort"
    yield "look", f"look {three}"
    yield "script", "script " + print_tree({"name": "edit", "commands": [set_length(three, number), "commit"]})
    yield "watch", "watch"
    yield "unwatch", "unwatch"


def costs_of(program, sizes):
    """The instructions of a request of each kind, on the average."""
    session, kinds = prepared(sizes), []
    before = len(session.lines)
    for number in range(ROUNDS):
        hand = spread("hand", number)
        for kind, request in requests(number):
            session.ask(hand, request)
            kinds.append(kind)
    counts = {}
    for kind, count in zip(kinds, program.of_each(session)[before:]):
        if kind is not None:
            counts.setdefault(kind, []).append(count)
    return {kind: sum(counted) / len(counted) for kind, counted in counts.items()}


def sizes_cost_little(program):
    """Whether a request of each kind costs hardly more at four times a size."""
    few, kept = costs_of(program, FEW), True
    for what, size in FEW.items():
        many = costs_of(program, {**FEW, what: TIMES * size})
        for kind, count in few.items():
            told = f"{kind} with {TIMES} times {what}: {count:,.0f} to {many[kind]:,.0f} instructions"
            kept = say(many[kind] <= MOST_OF_A_SIZE * count, f"{told}, {many[kind] / count:.3f} times") and kept
    return kept


def main():
    if len(sys.argv) != 2:
        print(__doc__)
        return 2
    if shutil.which("valgrind") is None:
        print("nothing is counted: valgrind isn't installed")
        return 2
    with tempfile.TemporaryDirectory(prefix="live-costs-") as folder:
        program = Counted(sys.argv[1], folder)
        try:
            kept = [sets_are_cheap(program, sets) for sets in SETS]
            kept += [sizes_cost_little(program)]
        except (Wrong, subprocess.TimeoutExpired) as wrong:
            print("WRONG:", *(str(part)[:2000] for part in wrong.args), sep="\n")
            return 1
    return 0 if all(kept) else 1


if __name__ == "__main__":
    sys.exit(main())
