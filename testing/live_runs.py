#!/usr/bin/env python3
"""Has random requests of 2 to 40 hands answered, and compares each answer with a second engine of live editing.

    python3 testing/live_runs.py CITYED CITY_SCENARIOS [--seeds N] [--seed FIRST]

The programs are built ones. The second engine (live_engine.py) plays N runs, each with a seed of its own, and foretells
all answers; city_scenarios has to give the same ones. In the second engine, where something waits another one doesn't,
and the oldest one that is open never dies. All that has ended is then run again by cityed with one worker, in the order
of the ends: each transaction that was committed, aborted or died, each script, and each refused command behind those in
front of it, as a script of its own. Each ends with the same replies, refusal or outcome, and the model is the same.
A run of more hands than may have something open at once comes last.
Prints what was tried, and ends at the first other answer with status 1, the seed and the line. Python 3 alone.
"""

import argparse
import collections
import json
import os
import random
import subprocess
import sys
import tempfile

from commands import MOST_SCRIPTS, Refusal
from json_tree import print_tree
from live_engine import Engine
from random_runs import HEAD

SECONDS = 120
MANY = 50  # the runs of one file of scenarios
MOST_HANDS = 4_096  # so many hands may have something open
MOST_TRIES = 10_000  # what goes on behind one request goes on less often than this
OBJECTS = {
    "b": {"type": "Building", "children": ["p", "q"], "attributes": {"n": 0}},
    "c": {"type": "Building", "children": ["q"]},
    "p": {"type": "BuildingPart", "parents": ["b"]},
    "q": {"type": "BuildingPart", "parents": ["b", "c"]},
    "x": {"type": "LandUse"},
    "y": {"type": "LandUse", "attributes": {"n": 1}},
}
DOCUMENT = json.dumps({**HEAD, "CityObjects": OBJECTS, "vertices": []})
NAMES = [*OBJECTS, "z"]
VERBS = {"read": 30, "expect": 5, "set": 25, "unset": 2, "put": 4, "add": 6, "delete": 8, "attach": 7, "detach": 7}
VERBS |= {"reshape": 2, "mark": 4, "back": 4}
# how often each request comes from a hand with nothing open, with something open, and with something that waits
IDLE = {"begin": 100, "script": 70, "look": 8, "model": 1, "watch": 6, "unwatch": 3, "bye": 4}
IDLE |= {"command": 1, "commit": 1, "abort": 1}
OPEN = {"command": 140, "commit": 30, "abort": 8, "look": 2, "model": 1, "watch": 2, "unwatch": 1, "bye": 2}
OPEN |= {"begin": 1, "script": 1}
WAITS = {"nothing": 120, "abort": 5, "bye": 2, "command": 2, "commit": 1, "look": 1, "watch": 1}
WAITS |= {"begin": 1, "script": 1}
# kinds of runs, by what comes so many times as often in them
KINDS = {
    "all": {},
    "watchers": {"watch": 20, "commit": 2},
    "marks": {"mark": 8, "back": 8},
    "scripts": {"script": 8},
    "byes": {"bye": 12},
    "aborts": {"abort": 6},
    "reads": {"read": 4, "expect": 4},
}


class Wrong(Exception):
    """An answer is another one than it should be."""


class WatchedEngine(Engine):
    """A second engine that counts, and holds that something can always go on, and comes to an end."""

    def __init__(self, document):
        super().__init__(document)
        self.counts, self.tries = collections.Counter(), 0

    def handle(self, hand, tag, request):
        self.tries = 0
        answers = super().handle(hand, tag, request)
        self.counts["requests"] += 1
        if self.open and all(work.waits_for is not None for work in self.open.values()):
            raise Wrong("all that is open waits")
        return answers

    def go_on(self, work):
        self.tries += 1
        if self.tries > MOST_TRIES:
            raise Wrong("what is open goes on without end")
        return super().go_on(work)

    def wait(self, work, waits_for, name, hands):
        self.counts["waits"] += not work.is_told
        return super().wait(work, waits_for, name, hands)

    def die(self, work, name, others):
        self.counts["deaths"] += 1
        if work is self.works()[0]:
            raise Wrong("the oldest one that is open dies")
        return super().die(work, name, others)


class Run:
    """A random run of this seed: the lines of its scenario, and the second engine and the model behind the last."""

    def __init__(self, seed):
        self.seed, self.choose = seed, random.Random(seed)
        self.hands = [f"h{number}" for number in range(self.choose.choice([2, 3, 4, 6, 8, 16, 40]))]
        self.names = self.choose.sample(NAMES, self.choose.choice([1, 2, 3, 5, len(NAMES)]))
        self.times = KINDS[self.choose.choice(list(KINDS))]
        self.engine, self.lines = WatchedEngine(DOCUMENT.encode()), []
        for _ in range(self.choose.choice([5, 15]) * len(self.hands) + self.choose.choice([20, 100])):
            self.play_one()
        self.end_all()
        self.model = self.ask(self.hands[0], "model")[0].split(" ", 3)[3]

    def ask(self, hand, request):
        tag = str(len(self.lines)) if self.choose.random() < 0.8 else None
        line = f"{hand} {request}" if tag is None else f"{hand}/{tag} {request}"
        try:
            answers = self.engine.handle(hand, tag, request)
        except Wrong as wrong:
            raise Wrong(f"seed {self.seed}, line {len(self.lines) + 1}: {line}", *wrong.args) from None
        self.lines.append(f"{line} -> {'; '.join(answers)}")
        return answers

    def chosen(self, weights):
        times = [weight * self.times.get(name, 1) for name, weight in weights.items()]
        return self.choose.choices(list(weights), times)[0]

    def play_one(self):
        hand = self.choose.choice(self.hands)
        work = self.engine.open.get(hand)
        word = self.chosen(IDLE if work is None else OPEN if work.waits_for is None else WAITS)
        if word != "nothing":
            self.ask(hand, self.request(word))

    def request(self, word):
        if word == "begin":
            return f"begin t{len(self.lines)}"
        if word == "look":
            return " ".join(["look", *self.choose.choices(NAMES, k=2)])
        if word == "command":
            return print_tree(self.command())
        if word == "script":
            commands = [self.command() for _ in range(self.choose.randint(0, 5))]
            ended = [*commands, self.choose.choice(["commit", "commit", "commit", "abort"])]
            return "script " + print_tree({"name": f"s{len(self.lines)}", "commands": ended})
        if word in ("commit", "abort") and self.choose.random() < 0.2:
            return print_tree(word)
        return word

    def command(self):
        verb, name = self.chosen(VERBS), self.choose.choice(self.names)
        if verb in ("mark", "back"):
            return {verb: self.choose.choice("mn")}
        if verb in ("read", "delete"):
            return {verb: name}
        if verb in ("attach", "detach"):
            parts = [part for part in ("p", "q") if part in self.names]
            child = self.choose.choice(parts) if parts and self.choose.random() < 0.8 else name
            return {verb: child, "parent": self.choose.choice(self.names + ["b", "c"])}
        if verb in ("put", "add"):
            return {verb: name, "object": {"type": OBJECTS.get(name, {"type": "Road"})["type"]}}
        if verb == "reshape":
            return {verb: name, "geometry": []}
        return {verb: name, "attributes": ["n"] if verb == "unset" else {"n": self.choose.randrange(4)}}

    def end_all(self):
        """Commits all that is open, or aborts it, until nothing is."""
        while self.engine.open:
            work = next(work for work in self.engine.works() if work.waits_for is None)
            self.ask(work.hand, "commit")
            if self.engine.open.get(work.hand) is work:
                self.ask(work.hand, "abort")

    def scenario(self):
        return "\n".join([f"Seed {self.seed}", "live", "$the city", "----", *self.lines])


def crowd():
    """The scenario of hands that come and go, more than may have something open at once."""
    script = 'script {"name":"s","commands":[{"delete":"z"},"commit"]}'
    refused = 'refused 0 "cause":"NoObject","id":"z"'
    hands = [f"come{number}/1" for number in range(5_000)]
    lines = [f"{hand} {script} -> {hand} s {refused} since {number} version 0" for number, hand in enumerate(hands)]
    lines += [f"stay{number}/2 begin t -> stay{number}/2 began 5000" for number in range(MOST_HANDS)]
    lines += ["x/3 begin t -> x/3 TooManyHands", "x/4 watch -> x/4 TooManyHands"]
    lines += ["stay7/5 commit -> stay7/5 t committed since 5000 version 0", "x/6 begin t -> x/6 began 5001"]
    lines += ["stay7/7 begin t -> stay7/7 TooManyHands", "x/8 bye -> x/8 t aborted since 5001 version 0; x/8 bye"]
    lines += ["stay7/9 watch -> stay7/9 watching 0", "y/10 begin t -> y/10 TooManyHands"]
    lines += ["stay7/11 unwatch -> stay7/11 unwatched", "y/12 begin t -> y/12 began 5002"]
    return "\n".join(["A crowd", "live", "$the city", "----", *lines])


def play(program, folder, runs):
    """Has the program play these runs as scenarios of one file."""
    play_all(program, folder, [run.scenario() for run in runs])


def play_all(program, folder, scenarios):
    path = os.path.join(folder, "runs.txt")
    with open(path, "w", encoding="utf-8") as file:
        file.write("\n\n".join(["let the city\n" + DOCUMENT, *scenarios]) + "\n")
    status, output, error = answer([program, path])
    if (status, output) != (0, f"{path}: {len(scenarios)} played\n".encode()):
        raise Wrong(output.decode(errors="replace").removeprefix(f"{path}: "), f"status {status}", error.decode())


def answer(words):
    ran = subprocess.run(words, stdin=subprocess.DEVNULL, capture_output=True, timeout=SECONDS, check=False)
    return ran.returncode, ran.stdout, ran.stderr


def scripts_of(history):
    """What has ended as scripts that run one by one, each with the replies and the ending that it has to have.

    A refused command or commit is the end of a script of its own, behind the commands that weren't refused before.
    """
    for name, told, outcome in history:
        commands, replies = [], []
        for command, reply in told:
            if isinstance(reply, Refusal):
                ending = {"outcome": "refused", "at": len(commands), "cause": reply.cause, **reply.named}
                last = [command] if command == "commit" else [command, "abort"]
                yield name, commands + last, list(replies), ending
            else:
                commands, replies = commands + [command], replies + [reply]
        if outcome in ("committed", "aborted"):
            last = "commit" if outcome == "committed" else "abort"
            yield name, commands + [last], replies, {"outcome": outcome}


def run_again(program, folder, run):
    """Has cityed run all that has ended in a run, one by one, and compares its report and its model."""
    scripts, wanted = [], []
    for number, (name, commands, replies, ending) in enumerate(scripts_of(run.engine.history)):
        scripts.append({"name": name, "commands": commands})
        wanted.append(print_tree({"name": name, "replies": replies, "script": number, "since": number, **ending}))
    if len(scripts) > MOST_SCRIPTS:
        raise Wrong(f"seed {run.seed}: {len(scripts)} scripts are too many")
    paths = [os.path.join(folder, name) for name in ("model.json", "scripts.json")]
    for path, text in zip(paths, (DOCUMENT, json.dumps(scripts))):
        with open(path, "w", encoding="utf-8") as file:
            file.write(text)
    status, output, error = answer([program, "--workers", "1", *paths])
    compare(run, output.decode().splitlines(), [*wanted, run.model])
    if (status, error) != (0, b""):
        raise Wrong(f"seed {run.seed}: cityed ends with status {status}", error.decode())
    return len(scripts)


def compare(run, lines, wanted):
    for number in range(max(len(lines), len(wanted))):
        line, right = ((it[number : number + 1] or ["nothing"])[0] for it in (lines, wanted))
        if line != right:
            raise Wrong(f"seed {run.seed}, run again by cityed, line {number + 1}", f"wanted: {right}", f"came: {line}")


def try_all(cityed, scenarios, seeds):
    """Tries the runs of these seeds, and returns what there was in them."""
    counts = collections.Counter()
    with tempfile.TemporaryDirectory(prefix="live-") as folder:
        for start in range(0, len(seeds), MANY):
            runs = [Run(seed) for seed in seeds[start : start + MANY]]
            play(scenarios, folder, runs)
            for run in runs:
                counts.update(run.engine.counts)
                counts["ends"] += len(run.engine.history)
                counts["scripts"] += run_again(cityed, folder, run)
        play_all(scenarios, folder, [crowd()])
    return counts


def main():
    parser = argparse.ArgumentParser(description=__doc__, formatter_class=argparse.RawDescriptionHelpFormatter)
    parser.add_argument("cityed", metavar="CITYED")
    parser.add_argument("scenarios", metavar="CITY_SCENARIOS")
    parser.add_argument("--seeds", type=int, default=1000, metavar="N")
    parser.add_argument("--seed", type=int, default=1, metavar="FIRST")
    given = parser.parse_args()
    programs = [os.path.abspath(path) for path in (given.cityed, given.scenarios)]
    try:
        counts = try_all(*programs, range(given.seed, given.seed + given.seeds))
    except (Wrong, subprocess.TimeoutExpired) as wrong:
        print("WRONG:", *(str(part)[:2000] for part in wrong.args), sep="\n")
        return 1
    told = ", ".join(f"{counts[name]} {name}" for name in ("requests", "waits", "deaths", "ends"))
    print(f"{given.seeds} runs, {told}, {counts['scripts']} scripts run again, as it should be")
    return 0


if __name__ == "__main__":
    sys.exit(main())
