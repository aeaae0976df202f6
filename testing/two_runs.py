#!/usr/bin/env python3
"""Starts runs of cityed at once on one output file, and compares what each says with what is in the file at last.

    python3 testing/two_runs.py PROGRAM [--pairs N] [--triples N] [--only KIND]

PROGRAM is a built cityed. Each run sets an attribute of its own. A run that ends with status 0 has it in the file at
last; each other one says that the file is in use, and has read and written nothing. Other programs change the file
while a run waits for its scripts. Nothing may be left beside the file. Prints a line for each kind with the number of
cases, and ends at the first other answer with status 1.
"""
import argparse
import errno
import itertools
import json
import os
import signal
import subprocess
import sys
import tempfile
import time
from contextlib import contextmanager

LIMIT = 120
IN_USE, CHANGED = b"cityed: file in use\n", b"cityed: model changed\n"
LOCK = ".cityed-lock"


class Wrong(Exception):
    """The program answered something else than it should."""


def model(*numbers):
    """The model after the runs of these numbers, in one line."""
    attributes = "".join(f'"r{number}":{number},' for number in sorted(numbers)).rstrip(",")
    inner = f'"attributes":{{{attributes}}},' if attributes else ""
    return (
        f'{{"CityObjects":{{"f":{{{inner}"type":"LandUse"}}}},"transform":{{"scale":[1,1,1],"translate":[0,0,0]}},'
        '"type":"CityJSON","version":"2.0","vertices":[]}\n'
    ).encode()


def scripts(number):
    """The scripts of a run."""
    edit = {"set": "f", "attributes": {f"r{number}": number}}
    return json.dumps([{"name": f"run {number}", "commands": [edit, "commit"]}]).encode()


def report(number):
    return f'{{"name":"run {number}","outcome":"committed","replies":["set"],"script":0,"since":0}}\n'.encode()


class Place:
    """A folder with an output file in a folder of its own, names that lead to it, and files of scripts."""

    def __init__(self, folder, runs, there=True):
        self.root = tempfile.mkdtemp(dir=folder)
        self.home = os.path.join(self.root, "home")
        self.city, self.base = os.path.join(self.home, "city.json"), os.path.join(self.root, "base.json")
        os.mkdir(self.home)
        for path in [self.base] + [self.city] * there:
            write(path, model())
        for number in range(runs):
            write(self.edits(number), scripts(number))
            os.mkfifo(self.pipe(number))
        os.symlink("home", os.path.join(self.root, "folder"))
        os.symlink("home/city.json", os.path.join(self.root, "link"))
        os.symlink(os.path.join(self.root, "link"), os.path.join(self.root, "chain"))
        self.names = ["home/city.json", "link", self.city, "folder/city.json", "chain", "home/../folder/./city.json"]
        self.there = there

    def edits(self, number):
        return os.path.join(self.root, f"edits{number}.json")

    def pipe(self, number):
        return os.path.join(self.root, f"pipe{number}")

    def hold_nothing_left(self, *told):
        if os.listdir(self.home) != ["city.json"]:
            raise Wrong("left over", os.listdir(self.home), *told)
        for name in ("link", "chain", "folder"):
            if not os.path.islink(os.path.join(self.root, name)):
                raise Wrong("no link any more", name, *told)


class Run:
    """A run that was begun, by the program's words behind its name."""

    def __init__(self, program, place, words, text=None):
        self.words = words
        source = subprocess.DEVNULL if text is None else subprocess.PIPE
        self.process = subprocess.Popen(
            [program, *words], cwd=place.root, stdin=source, stdout=subprocess.PIPE, stderr=subprocess.PIPE
        )
        if text is not None:
            try:
                self.process.stdin.write(text)
                self.process.stdin.close()
            except BrokenPipeError:
                pass
            self.process.stdin = None

    def end(self):
        """Status, output and standard error."""
        output, error = self.process.communicate(timeout=LIMIT)
        return self.process.returncode, output, error


def write(path, text):
    with open(path, "wb") as file:
        file.write(text)


def read(path):
    with open(path, "rb") as file:
        return file.read()


def begin(program, place, number, name, way, wait, pipe=False):
    """Begins a run: from files, with its scripts from standard input, or with both from there."""
    words = ["-o", name] + (["--wait", str(wait)] if wait else [])
    of_file = name if place.there else place.base
    if way == "input":
        return Run(program, place, words, model() + scripts(number))
    if way == "scripts":
        return Run(program, place, [*words, of_file, "/dev/stdin"], scripts(number))
    return Run(program, place, [*words, of_file, place.pipe(number) if pipe else place.edits(number)])


def judge(place, way, runs, wait):
    """Compares the ends of these runs with what is in the file."""
    ends = [run.end() for run in runs]
    done = [number for number, (status, _, _) in enumerate(ends) if status == 0]
    for number, end in enumerate(ends):
        wanted = (0, report(number), b"") if number in done else (1, b"", IN_USE)
        if end != wanted:
            raise Wrong(runs[number].words, end, wanted)
    if not done or (wait and len(done) < len(runs)):
        raise Wrong("too few are done", [run.words for run in runs], ends)
    found = read(place.city)
    # Where the file isn't the model that was read, the last run's model replaces those of the others.
    wanted = [model(*done)] if place.there and way != "input" else [model(number) for number in done]
    if found not in wanted:
        raise Wrong("an edit is lost", [run.words for run in runs], ends, found)
    place.hold_nothing_left(ends)
    return len(done)


def many(program, folder, size, count):
    """Runs of this size begin at once, or while the first one waits for its scripts."""
    counts = {"runs": 0, "done": 0}
    ways = itertools.product((0, 60), (1, 2), (True, False), ("files", "scripts", "input"), (False, True))
    ways = [it for it in ways if not (it[4] and it[3] != "files")]  # the first waits at a pipe, which is a file
    for turn, (wait, names, there, way, behind) in zip(range(count), itertools.cycle(ways)):
        place = Place(folder, size, there)
        pick = [place.names[(turn + k * (names - 1)) % len(place.names)] for k in range(size)]
        runs = [begin(program, place, 0, pick[0], way, wait, pipe=behind)]
        feed = opened(place.pipe(0), runs[0].process) if behind else None
        runs += [begin(program, place, number, pick[number], way, wait) for number in range(1, size)]
        if feed:
            if not wait and [run.end() for run in runs[1:]] != [(1, b"", IN_USE)] * (size - 1):
                raise Wrong("the first waits, and others aren't refused", [run.words for run in runs])
            if not wait:
                runs = runs[:1]
            feed.write(scripts(0))
            feed.close()
        counts["done"] += judge(place, way, runs, wait)
        counts["runs"] += size
    return f"{count} times {size} runs: {counts['done']} done, {counts['runs'] - counts['done']} found the file in use"


def pairs(program, folder, given):
    return many(program, folder, 2, given.pairs)


def triples(program, folder, given):
    return many(program, folder, 3, given.triples)


@contextmanager
def holding(program, place, *words):
    """A run that has read the model, and waits for its scripts."""
    run = Run(program, place, [*words, place.pipe(0)])
    with opened(place.pipe(0), run.process) as feed:
        yield run, feed


def opened(pipe, process):
    """The pipe of a process, once that reads from it: by then it has read the model."""
    for _ in range(LIMIT * 500):
        try:
            fd = os.open(pipe, os.O_WRONLY | os.O_NONBLOCK)
        except OSError as error:
            if error.errno != errno.ENXIO:
                raise
        else:
            os.set_blocking(fd, True)
            return os.fdopen(fd, "wb")
        if process.poll() is not None:
            raise Wrong("ended before its scripts", process.args, process.communicate())
        time.sleep(0.002)
    raise Wrong("never reads its scripts", process.args)


def nothing_read(program, folder, _given):
    """A run that finds the file in use has taken no byte of standard input, and opened no file."""
    count = 0
    for words in ([], [f"{folder}/no-model", f"{folder}/no-scripts"], ["--wait", "1"], ["--atomic", "--decimals"]):
        place = Place(folder, 1)
        with holding(program, place, "-o", "link", place.city) as (first, feed):
            reads, writes = os.pipe()
            os.write(writes, model() + scripts(1))
            began = time.monotonic()
            told = [program, "-o", place.city, *words]
            ran = subprocess.run(told, stdin=reads, capture_output=True, timeout=LIMIT, check=False)
            waited = time.monotonic() - began
            os.close(writes)
            with os.fdopen(reads, "rb") as left:
                if left.read() != model() + scripts(1):
                    raise Wrong(words, "read standard input")
            if (ran.returncode, ran.stdout, ran.stderr) != (1, b"", IN_USE):
                raise Wrong(words, ran)
            if ("--wait" in words) != (waited >= 1):
                raise Wrong(words, "waited", waited)
            feed.write(scripts(0))
        if first.end() != (0, report(0), b"") or read(place.city) != model(0):
            raise Wrong(words, "the first", read(place.city))
        place.hold_nothing_left(words)
        count += 1
    return f"{count} runs"


def killed(program, folder, _given):
    """A run that is killed frees its lock, also for one that waits. The next one takes the lock's file that it leaves."""
    count = 0
    for wait, name in itertools.product((0, 60), ("home/city.json", "link")):
        place = Place(folder, 2)
        with holding(program, place, "-o", name, name) as (first, _feed):
            second = begin(program, place, 1, "folder/city.json", "files", wait) if wait else None
            time.sleep(0.05 * bool(wait))
            first.process.send_signal(signal.SIGKILL)
            if first.end()[0] != -signal.SIGKILL:
                raise Wrong(name, "isn't killed")
            if not wait and sorted(os.listdir(place.home)) != ["city.json", "city.json" + LOCK]:
                raise Wrong(name, os.listdir(place.home))
            second = second or begin(program, place, 1, "folder/city.json", "files", 0)
            if second.end() != (0, report(1), b"") or read(place.city) != model(1):
                raise Wrong(name, "the second", read(place.city))
        place.hold_nothing_left(name)
        count += 1
    return f"{count} runs"


def turned(program, folder, _given):
    """A link is turned to another file while a run waits for the first: its edit is in the second, and nothing is left."""
    for name in ("link", "chain"):
        place = Place(folder, 2)
        other = os.path.join(place.root, "other.json")
        write(other, model(5))
        with holding(program, place, "-o", "link", "link") as (first, feed):
            second = begin(program, place, 1, name, "files", 60)
            time.sleep(0.1)
            os.symlink("other.json", os.path.join(place.root, "new"))
            os.rename(os.path.join(place.root, "new"), os.path.join(place.root, "link"))
            time.sleep(0.1)
            feed.write(scripts(0))
        ends, texts = [first.end(), second.end()], [read(place.city), read(other)]
        if ends != [(0, report(0), b""), (0, report(1), b"")] or texts != [model(0), model(1, 5)]:
            raise Wrong(name, ends, texts)
        place.hold_nothing_left(name)
        if any(LOCK in it for it in os.listdir(place.root)):
            raise Wrong(name, os.listdir(place.root))
    return "2 runs"


def odd_locks(program, folder, _given):
    """What stands under the name of the lock's file: an older file is taken, and all else keeps the run from FILE."""
    kinds = {
        "file": (lambda path: write(path, b"older"), b""),
        "read-only": (lambda path: (write(path, b""), os.chmod(path, 0o400)), b""),
        "folder": (os.mkdir, b"cityed: cannot write\n"),
        "link": (lambda path: os.symlink("city.json", path), IN_USE),
        "dangling": (lambda path: os.symlink("nothing", path), IN_USE),
        "pipe": (os.mkfifo, IN_USE),
    }
    for kind, (make, error) in kinds.items():
        place = Place(folder, 1)
        make(place.city + LOCK)
        end = begin(program, place, 0, "link", "files", 0).end()
        wanted = (1, b"", error) if error else (0, report(0), b"")
        if end != wanted or read(place.city) != (model() if error else model(0)):
            raise Wrong(kind, end, wanted)
        if not error:
            place.hold_nothing_left(kind)
    return f"{len(kinds)} kinds"


def renamed(path, text):
    write(path + ".other", text)
    os.rename(path + ".other", path)


def in_place(path, text):
    with open(path, "r+b") as file:
        file.write(text)
        file.truncate()


def in_old_time(path, text):
    found = os.stat(path)
    in_place(path, text)
    os.utime(path, ns=(found.st_atime_ns, found.st_mtime_ns))


def replaced_by(make):
    def change(path):
        os.unlink(path)
        make(path)

    return change


OTHER = model(7)
LONG = model().replace(b"LandUse", b"WaterBody")  # of another length
SAME = model().replace(b"LandUse", b"Landuse")  # of the same length
# how a program without locks changes the file while a run waits for its scripts, and whether the run goes on
CHANGES = {
    "renamed": (lambda path: renamed(path, OTHER), False),
    "renamed, as long": (lambda path: renamed(path, SAME), False),
    "renamed, the same": (lambda path: renamed(path, model()), True),
    "in place": (lambda path: in_place(path, OTHER), False),
    "in place, longer": (lambda path: in_place(path, LONG), False),
    "in place, as long": (lambda path: in_place(path, SAME), False),
    "in place, the same": (lambda path: in_place(path, model()), True),
    "in place, its time set back": (lambda path: in_old_time(path, SAME), False),
    "one byte more": (lambda path: in_place(path, model() + b" "), False),
    "emptied": (lambda path: in_place(path, b""), False),
    "touched": (os.utime, True),
    "another mode": (lambda path: os.chmod(path, 0o640), True),
    "removed": (os.unlink, False),
    "removed, and made again": (replaced_by(lambda path: write(path, model())), True),
    "a folder": (replaced_by(os.mkdir), False),
    "a link": (replaced_by(lambda path: os.symlink(path + ".away", path)), False),
    "a link to the same": (lambda path: (os.rename(path, path + ".away"), os.symlink("city.json.away", path)), False),
    "a pipe": (replaced_by(os.mkfifo), False),
    "nothing": (lambda path: None, True),
}
NO_FILES = ("a folder", "a link", "a link to the same", "a pipe")  # what is no plain file any more can't be replaced


def state(path):
    """What stands under a name."""
    if os.path.islink(path):
        return "link", os.readlink(path)
    if not os.path.exists(path):
        return "nothing"
    return ("file", read(path)) if os.path.isfile(path) else ("other", os.stat(path).st_ino)


def others(program, folder, _given):
    """A file that another program changes meanwhile stays as that one left it, if it was read, and has other bytes."""
    count = 0
    sources = ("model", "hard link", "linked", "standard input", "another")
    ways = list(itertools.product(CHANGES, sources, (False, True)))
    places = [Place(folder, 1) for _ in ways]
    time.sleep(3.5)  # by now a later change of these files gets another time
    for (kind, way, fresh), place in zip(ways, places):
        change, goes_on = CHANGES[kind]
        source, name = {"model": (place.city, place.city), "linked": ("link", "chain")}.get(way, (place.city, "link"))
        if fresh:
            in_place(place.city, model())
        if way == "hard link":
            source = os.path.join(place.root, "hard")
            os.link(place.city, source)
        elif way == "another":
            source = place.base
        stdin = open(place.city, "rb") if way == "standard input" else None
        words = [program, "-o", name, "/dev/stdin" if stdin else source, place.pipe(0)]
        run = subprocess.Popen(
            words, cwd=place.root, stdin=stdin or subprocess.DEVNULL, stdout=subprocess.PIPE, stderr=subprocess.PIPE
        )
        with opened(place.pipe(0), run) as feed:
            change(place.city)
            before, beside = state(place.city), sorted(os.listdir(place.home))
            feed.write(scripts(0))
        output, error = run.communicate(timeout=LIMIT)
        end, after = (run.returncode, output, error), state(place.city)
        if kind in NO_FILES:
            wanted, left = (1, b"", b"cityed: cannot write\n"), before
        elif goes_on or way == "another":
            wanted, left = (0, report(0), b""), ("file", model(0))
        else:
            wanted, left = (1, report(0), CHANGED), before
        if end != wanted or after != left:
            raise Wrong(kind, way, "fresh" if fresh else "old", end, wanted, after, left)
        now = sorted(os.listdir(place.home))
        if set(now) - {"city.json"} != set(beside) - {"city.json", "city.json" + LOCK}:
            raise Wrong(kind, way, "left over", now)
        if stdin:
            stdin.close()
        count += 1
    return f"{count} changes"


def hard_links(program, folder, _given):
    """Two hard links of one file are two files to be replaced: each has the edit of its run."""
    for turn in range(10):
        place = Place(folder, 2)
        names = [place.city, os.path.join(place.home, "hard.json")]
        os.link(*names)
        words = [["-o", names[number], names[number - turn % 2], place.edits(number)] for number in (0, 1)]
        runs = [Run(program, place, it) for it in words]
        ends = [run.end() for run in runs]
        texts = [read(name) for name in names]
        for number, end in enumerate(ends):
            if end == (0, report(number), b""):
                # a run reads the other name's file before or after that is replaced
                allowed = [model(number)] + [model(0, 1)] * (turn % 2)
                if texts[number] not in allowed:
                    raise Wrong("hard links", ends, texts)
            else:
                raise Wrong("hard links", ends)
        if sorted(os.listdir(place.home)) != ["city.json", "hard.json"]:
            raise Wrong("hard links", os.listdir(place.home))
    return "10 pairs"


KINDS = (pairs, triples, nothing_read, killed, turned, odd_locks, others, hard_links)


def main():
    parser = argparse.ArgumentParser(description=__doc__, formatter_class=argparse.RawDescriptionHelpFormatter)
    parser.add_argument("program", metavar="PROGRAM")
    parser.add_argument("--pairs", type=int, default=200, metavar="N")
    parser.add_argument("--triples", type=int, default=50, metavar="N")
    parser.add_argument("--only", choices=[kind.__name__ for kind in KINDS], metavar="KIND")
    given = parser.parse_args()
    program = os.path.abspath(given.program)
    for kind in KINDS:
        if given.only in (None, kind.__name__):
            with tempfile.TemporaryDirectory() as folder:
                try:
                    print(f"{kind.__name__}: {kind(program, folder, given)}, as it should be", flush=True)
                except (Wrong, subprocess.TimeoutExpired) as wrong:
                    print("WRONG:", kind.__name__, *(str(part)[:800] for part in wrong.args))
                    return 1
    return 0


if __name__ == "__main__":
    sys.exit(main())
