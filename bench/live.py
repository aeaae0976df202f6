#!/usr/bin/env python3
"""Measures live editing beside SQLite, in one run: sets, a watcher, a long commit, memory, starts and saves.

    python3 bench/live.py PROGRAM [--buildings N] [--sets N] [--patient N]

PROGRAM is a built cityed. The model is make_city.py's prisms (16,000 buildings: 60 MB). SQLite has a row for each
object, a write-ahead log and synchronous=FULL, and sets by json_set, a commit each, in this process, so without a pipe.
cityed is asked through pipes, one set at a time, and by 8 hands that don't wait for answers. Prints each figure, its
limit, and which aren't held; the status is 1 if one isn't.
"""

import argparse
import json
import os
import re
import resource
import shutil
import sqlite3
import statistics
import subprocess
import sys
import tempfile
import threading
import time

HERE = os.path.dirname(os.path.abspath(__file__))
HANDS = 8
MOST_PROCESSOR = 20e-6  # seconds of processor time for a set
SETS_A_SYNC = 32  # so many sets or more for each sync
MOST_WATCHER, MOST_COMMIT, MOST_MEMORY = 1.3, 3, 1.1
LONG = 1_000  # sets of one commit
SCRIPTS = 40  # so many scripts of so many sets show what one takes
TURN = 10  # so many patient sets of each in turn
MOST_REPLAY = 4e-5  # seconds that a start takes more for each commit that it makes again
COUNTING = """
#define _GNU_SOURCE
#include <dlfcn.h>
#include <fcntl.h>
#include <unistd.h>
static void count(void) {
    int fd = open(SYNCS, O_WRONLY | O_APPEND);
    if (fd >= 0) (void)!write(fd, "!", 1), close(fd);
}
int fdatasync(int fd) { int (*real)(int) = dlsym(RTLD_NEXT, "fdatasync"); count(); return real(fd); }
int fsync(int fd) { int (*real)(int) = dlsym(RTLD_NEXT, "fsync"); count(); return real(fd); }
"""


class Live:
    """A program that holds the model; `ready` is how long it took."""

    def __init__(self, program, *words, **more):
        start = time.perf_counter()
        self.process = subprocess.Popen(
            [program, "--live", *words], stdin=subprocess.PIPE, stdout=subprocess.PIPE, **more
        )
        first = self.process.stdout.readline()
        if b'"cityed"' not in first:
            raise SystemExit(f"bench/live.py: not ready: {words} {first!r}")
        self.ready = time.perf_counter() - start

    def ask(self, line):
        self.process.stdin.write(line)
        self.process.stdin.flush()
        return self.process.stdout.readline()

    def pour(self, lines, answers):
        """Sends all lines without waiting, and reads so many last answers. Seconds by clock and processor."""
        before, start = self.processor(), time.perf_counter()
        threading.Thread(target=self.feed, args=(lines,)).start()
        while answers:
            line = self.process.stdout.readline()
            if not line:
                raise SystemExit("bench/live.py: it ended")
            answers -= b'"changed"' not in line[:40]
        return time.perf_counter() - start, self.processor() - before

    def feed(self, lines):
        self.process.stdin.write(lines)
        self.process.stdin.flush()

    def processor(self):
        with open(f"/proc/{self.process.pid}/stat", encoding="utf-8") as file:
            fields = file.read().rpartition(")")[2].split()
        return (int(fields[11]) + int(fields[12])) / os.sysconf("SC_CLK_TCK")

    def peak(self):
        """The most memory so far, in MiB."""
        with open(f"/proc/{self.process.pid}/status", encoding="utf-8") as file:
            return int(re.search(r"VmHWM:\s+(\d+)", file.read()).group(1)) / 1024

    def end(self):
        self.process.stdin.close()
        self.process.stdout.read()
        if self.process.wait():
            raise SystemExit(f"bench/live.py: status {self.process.returncode}")


def building(number, count):
    return f"object-{number * 7919 % count:08}"


def set_line(number, count):
    edit = f'{{"set":"{building(number, count)}","attributes":{{"n":{number}}}}}'
    script = f'{{"name":"s{number}","commands":[{edit},"commit"]}}'
    return f'{{"hand":"h{number % HANDS}","id":{number},"script":{script}}}\n'.encode()


def do_line(number, count):
    edit = f'{{"set":"{building(number, count)}","attributes":{{"n":{number}}}}}'
    return f'{{"hand":"t","do":{edit}}}\n'.encode()


def middle(times):
    """The middle and the 99th of 100, in microseconds."""
    ordered = sorted(times)
    return statistics.median(ordered) * 1e6, ordered[int(len(ordered) * 0.99)] * 1e6


def one_by_one(live, lines):
    """How long each of these takes from request to answer."""
    times = []
    for line in lines:
        start = time.perf_counter()
        answer = live.ask(line)
        times.append(time.perf_counter() - start)
        if b'"committed"' not in answer:
            raise SystemExit(f"bench/live.py: {answer[:300]!r}")
    return times


class Yardstick:
    """SQLite with a row for each object."""

    def __init__(self, path, objects):
        self.db = sqlite3.connect(path, isolation_level=None)
        self.db.execute("pragma journal_mode=WAL")
        self.db.execute("pragma synchronous=FULL")
        self.db.execute("create table objects(id text primary key, object text)")
        self.db.execute("begin")
        rows = ((name, json.dumps(it, separators=(",", ":"))) for name, it in objects.items())
        self.db.executemany("insert into objects values(?,?)", rows)
        self.db.execute("commit")

    def set(self, number, count):
        words = "update objects set object=json_set(object,'$.attributes.n',?) where id=?"
        self.db.execute(words, (number, building(number, count)))

    def times(self, numbers, count):
        """How long sets of these numbers take. A number is given once: SQLite writes nothing where nothing changes."""
        times = []
        for number in numbers:
            start = time.perf_counter()
            self.set(number, count)
            times.append(time.perf_counter() - start)
        return times


class Figures:
    """What is told, and whether all limits are held."""

    def __init__(self):
        self.are_held = True

    def tell(self, what, limit=None, is_held=True):
        told = "" if limit is None else f" (limit: {limit})" if is_held else f" (LIMIT: {limit}: NOT HELD)"
        self.are_held &= is_held
        print(f"{what}{told}", flush=True)


def counter(folder):
    """A library that counts syncs, and the file of its marks; or None where there is no compiler."""
    marks, source = os.path.join(folder, "syncs"), os.path.join(folder, "syncs.c")
    library = os.path.join(folder, "syncs.so")
    with open(source, "w", encoding="utf-8") as file:
        file.write(COUNTING.replace("SYNCS", json.dumps(marks)))
    open(marks, "wb").close()
    try:
        made = subprocess.run(["cc", "-O1", "-shared", "-fPIC", "-w", "-o", library, source, "-ldl"], check=False)
    except FileNotFoundError:
        return None, marks
    return (library if made.returncode == 0 else None), marks


def patient(figures, program, folder, model, yardstick, given):
    """One set at a time, with and without a journal, and SQLite's; by turns: a busy machine disturbs all alike."""
    count, sets = given.buildings, given.patient
    plain = Live(program, model)
    journaled = Live(program, "--journal", os.path.join(folder, "patient.journal"), model)
    times = {"SQLite": [], "no journal": [], "journal": []}
    for start in range(0, sets, TURN):
        lines = [set_line(number, count) for number in range(start, start + TURN)]
        times["SQLite"] += yardstick.times(range(start, start + TURN), count)
        times["no journal"] += one_by_one(plain, lines)
        times["journal"] += one_by_one(journaled, lines)
    found = {name: middle(them) for name, them in times.items()}
    durable = found["SQLite"][0]
    for name, most in (("SQLite", None), ("no journal", durable / 4), ("journal", durable)):
        half, most_of = found[name]
        limit = None if most is None else f"{most:.0f} µs"
        figures.tell(f"a set, {name}: {half:.0f} µs, 99 of 100 {most_of:.0f} µs", limit, most is None or half <= most)
    plain.end()
    journaled.end()


def pipelined(figures, program, folder, model, yardstick, given):
    """Sets of 8 hands that don't wait, beside SQLite's with a commit each; syncs; a watcher; a start behind them."""
    count, sets = given.buildings, given.sets
    lines = b"".join(set_line(number, count) for number in range(sets))
    library, marks = counter(folder)
    few = min(sets, 2_000)
    begun = time.perf_counter()
    yardstick.times(range(given.patient, given.patient + few), count)
    rate = few / (time.perf_counter() - begun)
    figures.tell(f"SQLite, a commit each: {rate:,.0f} sets a second")
    rates = {}
    for name, words in (("no journal", []), ("journal", ["--journal", os.path.join(folder, "poured.journal")])):
        more = {"env": {**os.environ, "LD_PRELOAD": library}} if library and words else {}
        live = Live(program, *words, model, **more)
        before = os.path.getsize(marks)
        wall, processor = live.pour(lines, sets)
        syncs = os.path.getsize(marks) - before
        rates[name] = sets / wall
        limit, held = (f"{8 * rate:,.0f}", sets / wall >= 8 * rate) if words else (None, True)
        figures.tell(f"{sets:,} sets of {HANDS} hands, {name}: {sets / wall:,.0f} a second, {wall:.2f} s", limit, held)
        figures.tell(
            f"  processor time: {processor / sets * 1e6:.1f} µs a set", f"{MOST_PROCESSOR * 1e6:.0f} µs",
            processor / sets <= MOST_PROCESSOR,
        )
        if more:
            is_held = syncs * SETS_A_SYNC <= sets
            figures.tell(f"  {syncs} syncs: one for {sets / max(syncs, 1):.0f} sets", SETS_A_SYNC, is_held)
        live.end()
    alone = Live(program, model)
    live = Live(program, "--journal", os.path.join(folder, "poured.journal"), model)
    most, took = MOST_REPLAY * sets, live.ready - alone.ready
    told = f"  ready in {alone.ready:.2f} s, and behind {sets:,} commits in {live.ready:.2f} s"
    figures.tell(told, f"{most:.1f} s more", took <= most)
    alone.end()
    live.end()
    costs = []
    for _ in range(2):
        walls = []
        for watchers in (0, 1):
            live = Live(program, model)
            if watchers:
                live.ask(b'{"hand":"w","watch":true}\n')
            walls.append(live.pour(lines, sets))
            live.end()
        costs.append([watched / alone for alone, watched in zip(*walls)])
    wall, processor = (min(it) for it in zip(*costs))
    figures.tell(
        f"with a watcher: {wall:.2f} times as long, {processor:.2f} times the processor time",
        f"{MOST_WATCHER} times the processor time", processor <= MOST_WATCHER,
    )


def long_commit(figures, program, folder, model, given):
    """A transaction of a thousand sets: its commit, beside a batch script of the same sets."""
    edits = os.path.join(folder, "edits.json")
    names = [building(number, given.buildings) for number in range(LONG)]
    sets = [{"set": name, "attributes": {"n": number}} for number, name in enumerate(names)][: LONG - 1]

    def batch(count):
        """Processor time of a run with so many such scripts."""
        with open(edits, "w", encoding="utf-8") as file:
            json.dump([{"name": "s", "commands": [*sets, "commit"]}] * count, file)
        before = resource.getrusage(resource.RUSAGE_CHILDREN)
        subprocess.run([program, model, edits], stdout=subprocess.DEVNULL, check=True)
        after = resource.getrusage(resource.RUSAGE_CHILDREN)
        return after.ru_utime + after.ru_stime - before.ru_utime - before.ru_stime

    batched = (min(batch(SCRIPTS) for _ in range(2)) - min(batch(0) for _ in range(2))) / SCRIPTS
    for name, words in (("no journal", []), ("journal", ["--journal", os.path.join(folder, "long.journal")])):
        live, commits, all_of = Live(program, *words, model), [], []
        for turn in range(4):
            start = time.perf_counter()
            live.ask(b'{"hand":"t","begin":"t"}\n')
            live.pour(b"".join(do_line(number, given.buildings) for number in range(LONG - 1)), LONG - 1)
            begun = time.perf_counter()
            answer = live.ask(b'{"hand":"t","commit":true}\n')
            commits.append(time.perf_counter() - begun)
            all_of.append(time.perf_counter() - start)
            if b'"committed"' not in answer:
                raise SystemExit(f"bench/live.py: {answer[:300]!r}")
        figures.tell(
            f"a commit of {LONG:,} sets, {name}: {min(commits) * 1e3:.1f} ms, "
            f"{min(all_of) * 1e3:.1f} ms with its sets; in a batch script {batched * 1e3:.1f} ms",
            f"{MOST_COMMIT * batched * 1e3:.1f} ms",
            min(commits) <= MOST_COMMIT * batched,
        )
        live.end()


def memory(figures, program, folder, model, given):
    """Peak memory beside a batch run's, and how long a start and a save take."""
    output, edits = os.path.join(folder, "output.json"), os.path.join(folder, "one.json")
    shutil.copy(model, output)
    with open(edits, "w", encoding="utf-8") as file:
        edit = {"set": building(0, given.buildings), "attributes": {"n": 1}}
        json.dump([{"name": "s", "commands": [edit, "commit"]}], file)
    pid = os.fork()
    if pid == 0:
        os.dup2(os.open(os.devnull, os.O_WRONLY), 1)
        os.execv(program, [program, "--output", os.path.join(folder, "batch.json"), model, edits])
    _, status, used = os.wait4(pid, 0)
    batch = used.ru_maxrss / 1024
    live = Live(program, "--output", output, "--journal", os.path.join(folder, "saved.journal"), output)
    after_start = live.peak()
    one_by_one(live, [set_line(number, given.buildings) for number in range(1_000)])
    saves = []
    for _ in range(3):
        start = time.perf_counter()
        answer = live.ask(b'{"hand":"s","save":true}\n')
        saves.append(time.perf_counter() - start)
        if b'"saved"' not in answer:
            raise SystemExit(f"bench/live.py: {answer[:300]!r}")
        one_by_one(live, [set_line(1, given.buildings)])
    peak = live.peak()
    size = os.path.getsize(model) / 1e6
    live.end()
    save = f"{min(saves):.2f} s, the longest {max(saves):.2f} s"
    figures.tell(f"{size:.0f} MB: ready in {live.ready:.2f} s; a save in {save}")
    figures.tell(
        f"peak memory: {peak:.0f} MiB with saves, {after_start:.0f} once ready; a batch run's {batch:.0f}",
        f"{MOST_MEMORY * batch:.0f} MiB", status == 0 and peak <= MOST_MEMORY * batch,
    )


def main():
    asked = argparse.ArgumentParser(description=__doc__, formatter_class=argparse.RawDescriptionHelpFormatter)
    asked.add_argument("program")
    asked.add_argument("--buildings", type=int, default=16_000)
    asked.add_argument("--sets", type=int, default=100_000)
    asked.add_argument("--patient", type=int, default=3_000)
    given = asked.parse_args()
    program, figures = os.path.abspath(given.program), Figures()
    with tempfile.TemporaryDirectory(prefix="live-") as folder:
        words = [sys.executable, os.path.join(HERE, "make_city.py"), "prisms", str(given.buildings), "0"]
        model = os.path.join(folder, "model.json")
        with open(model, "wb") as file:
            text = subprocess.run(words, stdout=subprocess.PIPE, check=True).stdout
            file.write(text[: text.index(b"\n") + 1])
        objects = json.loads(text[: text.index(b"\n")])["CityObjects"]
        load = f"{os.cpu_count()} cores, load {os.getloadavg()[0]:.1f}"
        print(f"{len(text) / 1e6:.1f} MB, {len(objects):,} objects, {load}")
        yardstick = Yardstick(os.path.join(folder, "objects.sqlite"), objects)
        del objects, text
        patient(figures, program, folder, model, yardstick, given)
        pipelined(figures, program, folder, model, yardstick, given)
        long_commit(figures, program, folder, model, given)
        memory(figures, program, folder, model, given)
        print(f"load {os.getloadavg()[0]:.1f}")
    return 0 if figures.are_held else 1


if __name__ == "__main__":
    sys.exit(main())
