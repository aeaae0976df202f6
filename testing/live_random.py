"""Random runs of live editing by lines: each answer as the second engine foretells it, what has ended run again by the
program, and the scripts of the journal."""

import collections
import json
import random
import re
import subprocess

from documents import city_text
from json_tree import print_tree
from commands import do_read
from live_process import SECONDS, Home, Wrong, replayed, require, scripts_in
from live_runs import DOCUMENT, Run, WatchedEngine, run_again

WORDS = {"watch": {"watch": True}, "unwatch": {"watch": False}, "bye": {"bye": True}, "model": {"model": True}}
WORDS |= {"commit": {"commit": True}, "abort": {"abort": True}}


class LineEngine(WatchedEngine):
    """A second engine that keeps what each version has changed, and tells looks as an object by id."""

    def __init__(self, document):
        super().__init__(document)
        self.changes = {}

    def look(self, hand, tag, names):
        found = {name: do_read(self.city, name)["found"] if name in self.city else None for name in names.split()}
        self.say(hand, tag, f"look {self.version} {print_tree(found)}")

    def commit(self, work):
        written, version = dict(work.writes), self.version
        is_more = super().commit(work)
        if self.version > version:
            there = {name: do_read(self.city, name)["found"] if name in self.city else None for name in written}
            self.changes[self.version] = there
        return is_more


class LineRun(Run):
    """A random run whose requests are lines: `requests`, and the answers to all, in order."""

    def __init__(self, seed):
        self.requests, self.answers = [], []
        super().__init__(seed)

    def ask(self, hand, request):
        if not self.requests:
            self.engine = LineEngine(DOCUMENT.encode())
        count = len(self.lines)
        answers = super().ask(hand, request)
        asked = self.lines[count].split(" ", 1)[0].partition("/")
        line = {"hand": hand} if not asked[1] else {"hand": hand, "id": int(asked[2])}
        self.requests.append({**line, **request_of(request)})
        self.answers += answers
        return answers


def request_of(words):
    """The members of a request that is given by a scenario's words."""
    word, _, rest = words.strip('"').partition(" ")
    if word in WORDS:
        return WORDS[word]
    if word == "begin":
        return {"begin": rest}
    if word == "look":
        return {"look": rest.split(" ")}
    if word == "script":
        return {"script": json.loads(words.partition(" ")[2])}
    return {"do": json.loads(words)}


def words_of(answer, changes):
    """An answer in a scenario's words."""
    hand = answer["hand"] + (f"/{answer['id']}" if "id" in answer else "")
    (what,) = answer.keys() - {"hand", "id", "version"}
    told = answer[what]
    if what in ("waits", "died"):
        return " ".join([hand, what, told["on"], *told["for"]])
    if what == "changed":
        if told["objects"] != changes.get(told["version"]):
            raise Wrong("what is told of a change", answer, changes.get(told["version"]))
        signs = [("-" if found is None else "+") + name for name, found in sorted(told["objects"].items())]
        return " ".join([hand, "changed", str(told["version"]), "by", told["by"], told["name"], *signs])
    if what == "ended":
        outcome = told["outcome"] if told["outcome"] != "refused" else refused(told)
        replies = [print_tree(reply) for reply in told.get("replies", [])]
        since, version = str(told["since"]), str(told["version"])
        return " ".join([hand, told["name"], outcome, "since", since, "version", version, *replies])
    if what == "refused":
        return f"{hand} {refused(told)}"
    if what in ("look", "model"):
        return f"{hand} {what} {answer['version']} {print_tree(told)}"
    if what == "watching":
        return f"{hand} unwatched" if told is False else f"{hand} watching {told}"
    plain = {"began": f"began {told}", "cancelled": "cancelled", "bye": "bye", "reply": print_tree(told)}
    return f"{hand} {told['fault'] if what == 'error' else plain[what]}"


def refused(told):
    named = {name: value for name, value in told.items() if name in ("cause", "id", "mark")}
    return f"refused {told['at']} {print_tree(named)[1:-1]}"


def with_decimals(text):
    """The same text with decimals for each number of the trials' attribute."""
    return re.sub(rb'"n": ?(\d+)', rb'"n":\1.50', text)


def without_decimals(text):
    return re.sub(rb'"n":(\d+)\.50', rb'"n":\1', text)


def play(program, folder, run, decimals):
    """Plays a run by lines, and compares all answers, the saved model and the journal."""
    home, choose = Home(folder, {}), random.Random(run.seed)
    spelt = with_decimals if decimals else bytes
    home.base = spelt(DOCUMENT.encode())
    home.write("city.json", home.base)
    options, told = ["--decimals"] * decimals, (f"seed {run.seed}", "decimals" if decimals else "whole numbers")
    requests = [line for line in run.requests]
    if choose.random() < 0.5:
        place = choose.randrange(len(requests))
        requests.insert(place, {"hand": "saver", "id": "save", "save": True})
    text = b"".join(spelt(json.dumps(request, separators=(",", ":")).encode()) + b"\n" for request in requests)
    ran = subprocess.run(
        [program, "--live", *options, *home.words()], input=text, capture_output=True, timeout=SECONDS, check=False
    )
    lines = (without_decimals(ran.stdout) if decimals else ran.stdout).split(b"\n")[1:-1]
    answers = [answer for answer in map(json.loads, lines) if answer["hand"] != "saver"]
    try:
        found = [words_of(answer, run.engine.changes) for answer in answers]
    except (KeyError, ValueError, TypeError) as error:
        raise Wrong(*told, "an answer of another form", error, ran.stdout[:500], ran.stderr) from None
    for number, (line, wanted) in enumerate(zip(found, run.answers)):
        require(line == wanted, *told, f"answer {number}", line, "wanted", wanted)
    require(len(found) == len(run.answers), *told, len(found), len(run.answers), found[-1:], run.answers[-1:])
    require((ran.returncode, ran.stderr) == (0, b""), *told, ran.returncode, ran.stderr)
    saved = home.read("city.json")
    scripts = scripts_in(home)
    require(len(scripts) == run.engine.version, *told, "commits of the journal", len(scripts))
    if not scripts and len(requests) == len(run.requests):
        require(saved == home.base, *told, "a model that nobody has changed or saved is another one", saved)
        return
    model = city_text(run.engine.frame, run.engine.city).encode() + b"\n"
    require((without_decimals(saved) if decimals else saved) == model, *told, "the saved model", saved, model)
    made = replayed(program, folder, home.base, scripts, *options)
    require(made == saved, *told, "the journal's scripts make another model", made, saved)


def random_runs(program, folder, given):
    """Random runs of 2 to 40 hands, with and without --decimals."""
    counts = collections.Counter()
    for seed in range(given.seed, given.seed + given.runs):
        run = LineRun(seed)
        play(program, folder, run, seed % 3 == 0)
        counts["scripts run again"] += run_again(program, folder, run)
        counts.update(run.engine.counts)
        counts["commits that wrote"] += run.engine.version
    told = ", ".join(f"{count} {name}" for name, count in counts.items())
    return f"{given.runs} runs, {told}"
