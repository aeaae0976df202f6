"""Live runs with a journal that are killed, and start again: no commit that was told is lost, none is there in half or
twice."""

import collections
import json
import random
import subprocess
import threading
import time

from live_process import SECONDS, Home, Live, Wrong, city, scripts_in, line_of, ready, replayed, require, script, set_to

NAMES = [f"o{number}" for number in range(12)]
OBJECTS = {name: {"type": "LandUse"} for name in NAMES}
HANDS = 8
SAME = 20  # so many kills have the same requests


def requests_of(choose, count):
    """Requests of eight hands that meet at a few objects, with saves among them; the first asks to be told of changes.

    Each script that commits adds an object of its own, so a journal that has it twice is refused.
    """
    yield {"hand": "w", "watch": True}
    is_open = set()
    for number in range(count):
        hand, pick = f"h{choose.randrange(HANDS)}", choose.random()
        one, other = choose.sample(NAMES, 2)
        new = {"add": f"new-{number}", "object": {"type": "LandUse", "attributes": {"n": number}}}
        if pick < 0.004:
            yield {"hand": "saver", "id": number, "save": True}
        elif hand in is_open and pick < 0.6:
            yield {"hand": hand, "id": number, "do": choose.choice([set_to(one, number), new, {"read": one}])}
        elif hand in is_open:
            is_open.discard(hand)
            yield {"hand": hand, "id": number, choose.choice(["commit"] * 6 + ["abort", "bye"]): True}
        elif pick < 0.15:
            is_open.add(hand)
            yield {"hand": hand, "id": number, "begin": f"t{number}"}
        else:
            made = script(f"s{number}", set_to(one, number), new, set_to(other, number))
            yield {"hand": hand, "id": number, "script": made, "key": f"k{number}"}


class Untouched:
    """What a run answers that nobody kills: its whole output, and the objects of each version."""

    def __init__(self, program, folder, seed, count):
        self.requests = [line_of(it) for it in requests_of(random.Random(seed), count)]
        home = Home(folder, OBJECTS)
        words = [program, "--live", "--output", home.file, home.file]
        start = time.monotonic()
        ran = subprocess.run(
            words, input=b"".join(self.requests), capture_output=True, timeout=SECONDS, check=False
        )
        self.seconds = time.monotonic() - start
        if ran.returncode:
            raise Wrong("a run without a journal", ran.returncode, ran.stderr, ran.stdout[-300:])
        self.output, self.base = ran.stdout, home.base
        self.models, now = {0: dict(OBJECTS)}, dict(OBJECTS)
        for line in self.output.splitlines():
            if b'"changed"' in line[:30]:
                change = json.loads(line)["changed"]
                for name, found in change["objects"].items():
                    now[name] = found and found["object"]
                now = {name: it for name, it in now.items() if it is not None}
                self.models[change["version"]] = dict(now)


class Killed:
    """A run with these requests that is killed at a random moment, and what it has told until then."""

    def __init__(self, program, folder, wanted, choose):
        self.home = Home(folder, OBJECTS)
        self.wanted, self.choose, self.heard = wanted, choose, []
        live = Live(program, *self.home.words())
        self.first = b"" if live.first is None else json.dumps(live.first).encode()
        self.is_listened = threading.Event()
        self.until = choose.randrange(len(wanted.output)) if choose.random() < 0.5 else None
        threads = [threading.Thread(target=work, args=(live,)) for work in (self.feed, self.listen)]
        for thread in threads:
            thread.start()
        if self.until is None:
            time.sleep(choose.random() * 1.5 * wanted.seconds)
        else:
            self.is_listened.wait(SECONDS)
        live.process.kill()
        for thread in threads:
            thread.join()
        live.over()

    def feed(self, live):
        place, lines = 0, self.wanted.requests
        while place < len(lines):
            more = self.choose.randrange(1, 60)
            if not live.send_bytes(b"".join(lines[place : place + more])):
                return
            place += more
            if self.choose.random() < 0.1:
                time.sleep(self.choose.random() * 0.002)

    def listen(self, live):
        length = 0
        for line in live.process.stdout:
            self.heard.append(line)
            length += len(line)
            if self.until is not None and length >= self.until:
                self.is_listened.set()
        self.is_listened.set()

    def told(self):
        """The whole answers that were heard."""
        return [json.loads(line) for line in self.heard if line.endswith(b"\n")]


def body(output):
    """Output without the program's own first line."""
    return output.partition(b"\n")[2]


def judge(program, folder, killed, counts):
    """What a start finds behind a kill."""
    wanted, home = killed.wanted, killed.home
    heard = b"".join(killed.heard)
    require(body(wanted.output).startswith(heard), "another answer than without a kill", heard[-300:])
    told = killed.told()
    acknowledged = max([it["ended"]["version"] for it in told if "ended" in it], default=0)
    saved = max([it["saved"] for it in told if "saved" in it], default=0)
    text = home.read("city.json")
    objects = json.loads(text)["CityObjects"]
    on_disk = max([version for version, them in wanted.models.items() if them == objects], default=-1)
    require(on_disk >= saved and text == city(objects), "FILE isn't a model that was to be saved", saved, text)
    counts["in a save"] += any(not name.endswith("-lock") for name in home.strays())
    live = ready(program, *home.words())
    version, counts["torn"] = live.first["version"], counts["torn"] + ("cut" in live.told())
    require(version >= acknowledged, "a told commit is lost", f"told {acknowledged}, found {version}", live.told())
    require(live.model() == (wanted.models[version], version), "another model", version, live.model())
    keyed = [it for it in told if "ended" in it and it["ended"].get("outcome") == "committed"]
    for answer in killed.choose.sample(keyed, min(3, len(keyed))):
        if answer["ended"]["name"].startswith("s"):
            made = live.ask(hand="x", made=f"k{answer['id']}")
            require(made["made"] == answer["ended"]["version"], "made", made, answer)
    ended = live.commit("x", "on", set_to("o0", -1))
    require(ended.get("version") == version + 1, "it doesn't go on", ended)
    status, _, error = live.end()
    require(status == 0, "status", status, error)
    final = dict(wanted.models[version], o0={"type": "LandUse", "attributes": {"n": -1}})
    require(home.read("city.json") == city(final), "what was saved at the end", home.read("city.json"))
    scripts = scripts_in(home)
    require(len(scripts) == version + 1, "the journals have another number of commits", len(scripts), version)
    made = replayed(program, folder, wanted.base, scripts)
    require(made == city(final), "the journals' scripts make another model", made)
    counts["told commits"] += acknowledged
    counts["more than was told"] += version > acknowledged
    counts["before the end"] += len(heard) < len(body(wanted.output))
    counts["saves"] += sum("saved" in it for it in told)


def kills(program, folder, given):
    """Killed at random moments under eight hands, with saves in between."""
    counts = collections.Counter()
    for number in range(given.kills):
        if number % SAME == 0:
            wanted = Untouched(program, folder, given.seed + number, 1_500)
        killed = Killed(program, folder, wanted, random.Random(given.seed * 1_000_003 + number))
        try:
            judge(program, folder, killed, counts)
        except Wrong as wrong:
            raise Wrong(f"kill {number}, seed {given.seed}", killed.home.root, *wrong.args) from None
    told = ", ".join(f"{count} {name}" for name, count in counts.items())
    return f"{given.kills} kills: {told}"


def chain(program, folder, given):
    """Killed again and again over the same files, also while it starts: a counter never loses what was told."""
    home, choose = Home(folder, {"o": {"type": "LandUse", "attributes": {"n": 0}}}), random.Random(given.seed)
    told, least, commits, in_starts = 0, 0, 0, 0
    for _ in range(given.kills):
        if choose.random() < 0.3:
            start = Live(program, *home.words()) if choose.random() < 0.5 else None
            if start is None:
                start = subprocess.Popen(
                    [program, "--live", *home.words()], stdin=subprocess.PIPE, stdout=subprocess.DEVNULL,
                    stderr=subprocess.DEVNULL,
                )
                time.sleep(choose.random() * 0.01)
            start.kill()
            if isinstance(start, subprocess.Popen):
                start.communicate()
            in_starts += 1
        live = ready(program, *home.words())
        objects, version = live.model()
        now = objects["o"]["attributes"]["n"]
        require(told <= now <= least and version == now, "a counter", f"told {told}, asked {least}", now, version)
        told = least = now
        for _ in range(choose.randrange(1, 12)):
            if choose.random() < 0.2:
                live.send({"hand": "h", "id": 0, "save": True})
                if choose.random() < 0.7:
                    require(live.last().get("saved") == told, "saved", told)
            edit = [{"expect": "o", "attributes": {"n": least}}, set_to("o", least + 1)]
            live.send({"hand": "h", "id": least, "script": script("count", *edit)})
            least += 1
            if choose.random() < 0.9:
                told = answered(live, least)
                commits += 1
            else:
                break
        time.sleep(choose.random() * 0.002)
        live.kill()
    scripts = scripts_in(home)
    require(len(scripts) in (told, least), "commits in the journals", len(scripts), told, least)
    replayed(program, folder, home.base, scripts)
    return f"{given.kills} kills, {in_starts} more of starts, {commits} told commits"


def answered(live, version):
    """Reads answers up to the end that made this version."""
    for answer in iter(live.last, None):
        if "ended" in answer:
            require(answer["ended"].get("version") == version, "an end", answer, version)
            return version
    raise Wrong("ended", live.told())
