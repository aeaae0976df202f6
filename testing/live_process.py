"""A live run of cityed as its hands have it: requests are sent, answers are read; and what its files hold."""

import json
import os
import re
import shutil
import subprocess
import tempfile
import threading

from json_tree import print_tree
from random_runs import HEAD

SECONDS = 60  # a program that lives longer is killed, so that no trial waits for ever
MOST_SCRIPTS = 4_096


class Wrong(Exception):
    """The program answered something else than it should."""


def require(holds, *told):
    if not holds:
        raise Wrong(*told)


def city(objects):
    """A model of these objects, as the program writes it."""
    return (print_tree({**HEAD, "CityObjects": objects, "vertices": []}) + "\n").encode()


def script(name, *commands):
    return {"name": name, "commands": [*commands, "commit"]}


def set_to(name, number):
    """A command that sets the one attribute of these trials."""
    return {"set": name, "attributes": {"n": number}}


def line_of(request):
    """The line of a request; bytes are lines already."""
    return request if isinstance(request, bytes) else json.dumps(request, separators=(",", ":")).encode() + b"\n"


class Live:
    """A program that holds a model. `first` is its first line, or None if it ended without one."""

    def __init__(self, program, *words, **more):
        self.words, self.errors = words, tempfile.TemporaryFile()
        self.process = subprocess.Popen(
            [program, "--live", *words], stdin=subprocess.PIPE, stdout=subprocess.PIPE, stderr=self.errors, **more
        )
        self.timer = threading.Timer(SECONDS, self.process.kill)
        self.timer.daemon = True
        self.timer.start()
        self.first = self.read()

    def send(self, *requests):
        """Sends requests in one write; whether there is still someone to read them."""
        return self.send_bytes(b"".join(map(line_of, requests)))

    def send_bytes(self, text):
        try:
            self.process.stdin.write(text)
            self.process.stdin.flush()
        except (BrokenPipeError, ValueError):
            return False
        return True

    def pour(self, *requests):
        """Sends requests by a thread of its own, so that answers can be read meanwhile."""
        feeder = threading.Thread(target=self.send, args=requests)
        feeder.start()
        return feeder

    def read(self):
        """The next answer, or None if there is none any more."""
        line = self.process.stdout.readline()
        if not line.endswith(b"\n"):
            return None
        return json.loads(line)

    def last(self):
        """The next last answer: what tells of a wait or of a change isn't one."""
        for answer in iter(self.read, None):
            if not {"waits", "changed"} & answer.keys():
                return answer
        return None

    def ask(self, **request):
        """The last answer to a request, or None if the program ended before."""
        return self.last() if self.send(request) else None

    def commit(self, hand, name, *commands, **more):
        """Runs a script of these commands, and returns what is told of its end: {} if nothing is."""
        answer = self.ask(hand=hand, script=script(name, *commands), **more)
        return (answer or {}).get("ended", {})

    def model(self):
        """The objects of the model as committed, and the version."""
        answer = self.ask(hand="?", model=True)
        if not answer or "model" not in answer:
            raise Wrong("no model is told", self.words, answer, self.told())
        return answer["model"]["CityObjects"], answer["version"]

    def told(self):
        """Standard error up to now."""
        self.errors.seek(0)
        return self.errors.read().decode(errors="replace")

    def end(self):
        """Ends the input. Returns the status, the answers that were still to be read, and standard error."""
        try:
            self.process.stdin.close()
        except BrokenPipeError:
            pass
        rest = [json.loads(line) for line in self.process.stdout.read().split(b"\n")[:-1]]
        return self.over(), rest, self.told()

    def kill(self):
        self.process.kill()
        self.over()

    def over(self):
        """The status, once the program has ended."""
        status = self.process.wait()
        self.timer.cancel()
        for pipe in (self.process.stdin, self.process.stdout):
            try:
                pipe.close()
            except BrokenPipeError:
                pass
        return status

    def memory(self, what):
        """A figure of the kernel about this process (VmHWM: the most memory so far), in MiB."""
        with open(f"/proc/{self.process.pid}/status", encoding="utf-8") as file:
            found = re.search(rf"^{what}:\s+(\d+) kB", file.read(), re.MULTILINE)
        return int(found.group(1)) / 1024 if found else 0.0

    def seconds(self):
        """Processor time so far."""
        with open(f"/proc/{self.process.pid}/stat", encoding="utf-8") as file:
            fields = file.read().rpartition(")")[2].split()
        return (int(fields[11]) + int(fields[12])) / os.sysconf("SC_CLK_TCK")


def ready(program, *words, **more):
    """A program that holds its model; one that ends instead is wrong."""
    live = Live(program, *words, **more)
    if live.first is None or "version" not in live.first:
        raise Wrong("not ready", words, f"status {live.over()}", live.told(), live.first)
    return live


class Home:
    """A folder with a model that is saved in place, and its journal."""

    def __init__(self, folder, objects):
        self.root = tempfile.mkdtemp(dir=folder)
        self.file, self.journal = self.path("city.json"), self.path("journal")
        self.base = city(objects)
        self.write("city.json", self.base)

    def path(self, name):
        return os.path.join(self.root, name)

    def write(self, name, text):
        with open(self.path(name), "wb") as file:
            file.write(text)

    def read(self, name):
        with open(self.path(name), "rb") as file:
            return file.read()

    def words(self):
        return ["--output", self.file, "--journal", self.journal, self.file]

    def names(self):
        return sorted(os.listdir(self.root))

    def state(self):
        """What each file holds, but for those of locks."""
        return {name: self.read(name) for name in self.names() if not name.endswith("-lock")}

    def copy(self, folder):
        """The same files in another folder."""
        other = Home(folder, {})
        for name in self.names():
            shutil.copy(self.path(name), other.path(name))
        other.base = self.base
        return other

    def strays(self):
        """Names of files that no run should leave: all but the file, the journal and its archives."""
        return [name for name in self.names() if not re.fullmatch(r"city\.json|journal(\.\d+){0,2}", name)]


def whole_lines(text):
    """The lines of a journal as trees, but for what stands behind the last newline."""
    return [json.loads(line) for line in text.split(b"\n")[:-1]]


def scripts_in(home):
    """The texts of the scripts of all commits that the archives and the journal hold: each version once, in order."""
    names = [name for name in home.names() if re.fullmatch(r"journal(\.\d+){1,2}", name)]
    names.sort(key=lambda name: [int(number) for number in name.split(".")[1:]])
    lines = [line for name in [*names, "journal"] for line in home.read(name).split(b"\n")[:-1]]
    commits = [line for line in lines if b',"script":' in line]
    versions = [json.loads(line)["version"] for line in commits]
    if versions != list(range(1, len(versions) + 1)):
        raise Wrong("the versions of the journals aren't 1, 2, 3 and so on", home.root, names, versions)
    return [line[line.index(b',"script":') + 10 : line.rindex(b',"sum":')] for line in commits]


def replayed(program, folder, base, scripts, *options):
    """The model that runs of the program make of a model by these texts, as many in a run as it takes."""
    room = tempfile.mkdtemp(dir=folder)
    model, edits = os.path.join(room, "model"), os.path.join(room, "edits")
    with open(model, "wb") as file:
        file.write(base)
    for start in range(0, max(len(scripts), 1), MOST_SCRIPTS):
        with open(edits, "wb") as file:
            file.write(b"[" + b",".join(scripts[start : start + MOST_SCRIPTS]) + b"]")
        words = [program, *options, "--output", model, model, edits]
        ran = subprocess.run(words, capture_output=True, timeout=SECONDS, check=False)
        ends = [json.loads(line)["outcome"] for line in ran.stdout.splitlines()]
        if (ran.returncode, ran.stderr) != (0, b"") or set(ends) - {"committed"}:
            raise Wrong("a journal's scripts, run by the program", ran.returncode, ran.stderr, ran.stdout[-500:])
    with open(model, "rb") as file:
        return file.read()
