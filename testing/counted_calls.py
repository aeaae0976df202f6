#!/usr/bin/env python3
"""Counts the allocations of cityed for texts, and for texts four times as long.

    python3 testing/counted_calls.py PROGRAM [SCENARIOS]

PROGRAM is a built cityed, SCENARIOS a built city_scenarios. Needs a C compiler named cc, for count.c. The texts are
those of bench/growth.py, a third as long. Four times the text may take 4.5 times the allocations and 4.5 times the
bytes that they ask for; a road without members may take two allocations, for its id and its body, and a tenth, since
the nodes of a city's map are full. Each script has to commit, the two kinds that have a fault have to be refused, and
of the kinds with many faults --check has to tell each.

- Scripts that lock ids of their own may have 1.05 times as much allocated at once as scripts that lock the same ids.
- An object that is put may take 3 allocations for each attribute: its name, its text and its share.
- Sets on an object of 10,000 points may ask for twice the bytes of sets on one of 10, since they share its geometry.
- A text of one long attribute may ask for 4.6 times its bytes: it is read into memory that doubles, the attribute is
  one more copy, and the model is written where the text was.
- With `--decimals` a run may use 1.15 times the memory of one without, since the output is decoded in its own memory.
- An object of one attribute may hold 200 bytes more at once than one without, its text among them, and one whose
  attribute is an object of one member 300. A map has room for eleven members, which would be 848 bytes.
- Where scripts meet, sixteen workers may take 1.5 times the processor time of one.
- Four workers may leave their cores to wait 200 times in a run of many scripts, long ones or short.
- With SCENARIOS: ten times as many served runs in one process may hold 1.2 times as much at once, since a library
  gives the memory of each city back.
- Where valgrind is installed, the instructions of texts whose points would collide are counted too, and of objects of
  many members in no order and in falling order. They may grow six times. So are those of files that end in a newline,
  with `--decimals`: they may take 1.05 times those of files without one. With `--decimals` a model of whole numbers
  with a transform in fractions may take 1.27 times those of a whole one without, since its text is decoded by searches,
  and a report of many reads 1.4 times.
  A text of nothing but a byte that a search looks for may take 7 times those of a text of others.

Prints one line for each kind, and ends with status 1 where one took more or ended otherwise.
"""

import json
import os
import random
import re
import resource
import shutil
import subprocess
import sys
import tempfile

HERE = os.path.dirname(os.path.abspath(__file__))
sys.path.insert(0, os.path.join(HERE, "..", "bench"))
import growth  # noqa: E402

GREATEST = 4.5
MOST_INSTRUCTIONS = 6
MOST_OF_WORKERS = 1.5
MOST_SWITCHES = 200
MOST_AT_ONCE = 1.05
EACH_ROAD = 2.1
EACH_ATTRIBUTE = 3
MOST_OF_POINTS = 2
OF_AN_EMPTY_RUN = 100
MOST_OF_RUNS = 1.2
MOST_OF_A_NEWLINE = 1.05
MOST_OF_A_FRAME = 1.27
MOST_OF_READS = 1.4
MOST_OF_RARE_BYTES = 7
MOST_IN_PLACE = 1.15
FINE = {"scale": [0.001, 0.001, 0.001], "translate": [0.5, 0, 0]}
MOST_OF_A_TEXT = 4.6
OF_ONE_ATTRIBUTE = {"an attribute": ({"n": 1}, 200), "a member inside an attribute": ({"k": {"n": 1}}, 300)}
SMALL_PARENT = """
import os, sys
quiet = [(os.POSIX_SPAWN_OPEN, 1, os.devnull, os.O_WRONLY, 0)]
child = os.posix_spawn(sys.argv[1], sys.argv[1:], os.environ, file_actions=quiet)
_, status, used = os.wait4(child, 0)
print(used.ru_maxrss if status == 0 else sys.maxsize)
"""
REFUSED = (growth.repeated_child, growth.open_solid)
COLLIDING = {growth.colliding_points: 2_000, growth.colliding_replies: 500}
UNORDERED = {growth.many_members: 3_000, growth.inner_members: 3_000}
FIRST_STATES = {"without a seed": growth.FIRST_STATE, "by the fixed seed": growth.FIXED_STATE}


class Counted:
    """A built program whose allocations are counted, which count.c does."""

    def __init__(self, path, folder):
        self.path, self.folder = os.path.abspath(path), folder
        self.library = os.path.join(folder, "count.so")
        source = os.path.join(HERE, "count.c")
        subprocess.run(["cc", "-O1", "-shared", "-fPIC", "-o", self.library, source, "-ldl"], check=True)

    def names(self, texts, end=""):
        """The names of the two files, with these texts in them, and this behind each."""
        names = [os.path.join(self.folder, name) for name in ("model", "scripts")]
        for name, tree in zip(names, texts):
            with open(name, "w", encoding="utf-8") as file:
                json.dump(tree, file, separators=(",", ":"))
                file.write(end)
        return names

    def counts(self, texts, *options):
        """How many allocations a run makes, how many bytes they ask for, and the most that was allocated at once."""
        return self.counts_of([self.path, *options, *self.names(texts)])

    def counts_of(self, words):
        """The same of any program with its words."""
        told = os.path.join(self.folder, "told")
        with open(told, "wb") as file:
            file.write(bytes(32))
        variables = {**os.environ, "LD_PRELOAD": self.library, "COUNTED": told}
        ran = subprocess.run(words, capture_output=True, env=variables, timeout=120)
        with open(told, "rb") as file:
            return ran, [int.from_bytes(file.read(8), sys.byteorder) for _ in range(3)]

    def seconds(self, texts, *options):
        """How much processor time a run takes, of all its threads."""
        before = resource.getrusage(resource.RUSAGE_CHILDREN)
        subprocess.run([self.path, *options, *self.names(texts)], capture_output=True, check=True, timeout=120)
        after = resource.getrusage(resource.RUSAGE_CHILDREN)
        return after.ru_utime - before.ru_utime + after.ru_stime - before.ru_stime

    def peak(self, texts, *options):
        """How much memory a run has in use at most, in KiB. A small process starts it: a child's peak is at least that
        of its parent when it was started."""
        words = [sys.executable, "-c", SMALL_PARENT, self.path, *options, *self.names(texts)]
        return int(subprocess.run(words, capture_output=True, check=True, timeout=120).stdout)

    def switches(self, texts, *options):
        """How often the threads of a run leave their cores to wait, and the run."""
        before = resource.getrusage(resource.RUSAGE_CHILDREN).ru_nvcsw
        ran = subprocess.run([self.path, *options, *self.names(texts)], capture_output=True, timeout=120)
        return ran, resource.getrusage(resource.RUSAGE_CHILDREN).ru_nvcsw - before

    def instructions(self, texts, *options, end=""):
        """How many instructions a run executes, by valgrind's count."""
        words = ["valgrind", "--tool=callgrind", "--callgrind-out-file=/dev/null", self.path, *options]
        ran = subprocess.run([*words, *self.names(texts, end)], capture_output=True, check=True, timeout=600)
        return int(re.search(rb"Collected : (\d+)", ran.stderr)[1])


def committed(ran, scripts):
    """Whether each script of a run has committed."""
    lines = ran.stdout.splitlines()
    return ran.returncode == 0 and len(lines) == len(scripts) + 1 and all(
        json.loads(line)["outcome"] == "committed" for line in lines[:-1]
    )


def ended(ran, kind, scripts):
    """Whether a run of a kind, or a check of one, ended as it should."""
    if kind in growth.CHECKED:
        return ran.returncode == 1 and ran.stdout.endswith(b"}\n") and ran.stderr == b""
    refused = ran.returncode == 1 and ran.stdout == b"" and b"model: " in ran.stderr
    return refused if kind in REFUSED else committed(ran, scripts)


def say(right, told):
    print(f"{'' if right else 'WRONG: '}{told}", flush=True)
    return right


def grows_as_its_text(program, name, kind, count, options):
    """Whether nothing is copied whole: calls and bytes grow as the text does."""
    sizes = (count // 3, count // 3 * 4)
    texts = [kind(size) for size in sizes]
    (first, few), (last, many) = (program.counts(text, *options) for text in texts)
    times = [more / max(less, 1) for less, more in zip(few[:2], many)]
    right = max(times) <= GREATEST and ended(first, kind, texts[0][1]) and ended(last, kind, texts[1][1])
    if kind is growth.many_objects:
        right = right and all(calls <= EACH_ROAD * size + OF_AN_EMPTY_RUN for (calls, *_), size in zip((few, many), sizes))
    told = ", ".join(f"{less:,} to {more:,} {what}" for less, more, what in zip(few, many, ("calls", "bytes")))
    return say(right, f"{name}: {told}, {times[0]:.2f} and {times[1]:.2f} times")


def locks_leave_their_table(program, count):
    """Whether scripts that lock ids of their own hold no more at once than scripts that lock the same ids."""
    own = [growth.script([{"read": f"id-{number:06}-{at}"} for at in range(10)]) for number in range(count)]
    same = [growth.script([{"read": f"id-{0:06}-{at}"} for at in range(10)]) for _ in range(count)]
    runs = [program.counts((growth.model({}), scripts)) for scripts in (same, own)]
    (_, _, few), (_, _, many) = (counts for _, counts in runs)
    right = many <= MOST_AT_ONCE * few and all(committed(ran, own) for ran, _ in runs)
    return say(right, f"{count:,} scripts that lock ten ids each: {few:,} to {many:,} bytes at once, {many / few:.3f} times")


def bodies_are_shared(program, count, *options):
    """Whether a body is copied at its put alone: so many calls for each attribute."""
    body = {"type": "Road", "attributes": {name: 1 for name in growth.shuffled(count)}}
    texts = growth.model({}), [growth.script([{"put": "a", "object": body}])]
    ran, (calls, *_) = program.counts(texts, *options)
    right = calls <= EACH_ATTRIBUTE * count + OF_AN_EMPTY_RUN and committed(ran, texts[1])
    told = f"a put of {count:,} attributes{' before a viewer' if options else ''}: {calls:,} calls, {calls / count:.2f} for each"
    return say(right, told)


def model_takes_the_text(program, length, *options):
    """Whether the model is written into the memory of the text that it was read from."""
    road = {"type": "Road", "attributes": {"remark": "x" * length}}
    ran, (_, asked, _) = program.counts((growth.model({"r": road}), []), *options)
    told = f"a text of one attribute of {length:,} bytes{' by ' + ' '.join(options) if options else ''}: {asked:,} bytes"
    return say(asked <= MOST_OF_A_TEXT * length and committed(ran, []), f"{told}, {asked / length:.2f} times")


def few_take_little_room(program, count, what, *options):
    """Whether a few attributes, and values inside them, are held in no more room than they need."""
    attributes, limit = OF_ONE_ATTRIBUTE[what]

    def at_once(road):
        texts = growth.model({f"r{number:06}": road for number in range(count)}), []
        ran, (_, _, most) = program.counts(texts, *options)
        return most, committed(ran, [])

    (few, first), (many, last) = (at_once({"type": "Road", **more}) for more in ({}, {"attributes": attributes}))
    each = (many - few) / count
    name = f"{count:,} roads with {what}{' by ' + ' '.join(options) if options else ''}"
    return say(each <= limit and first and last, f"{name}: {each:.0f} bytes more at once for each")


def decoded_in_place(program, count, scripts):
    """Whether an output is decoded in its own memory: a model, one with a frame, one with fractions, and a report."""
    road = lambda length: {"type": "Road", "attributes": {"length": length, "remark": "x" * 400}}
    model = lambda length: growth.model({f"r{at:06}": road(length) for at in range(count)})
    reads = [growth.script([{"read": f"r{at:06}"} for at in range(500)])] * scripts
    kept = True
    for name, document, listed in (
        (f"{count:,} roads", model(7), []),
        (f"{count:,} roads and a fine transform", {**model(7), "transform": FINE}, []),
        (f"{count:,} roads with a fraction each", model(0.5), []),
        (f"{scripts} scripts of 500 reads", model(7), reads),
    ):
        bare, held = program.peak((model(7), listed)), program.peak((document, listed), "--decimals")
        told = f"{name}: {bare:,} KiB at most, {held:,} with --decimals, {held / bare:.3f} times"
        kept = say(held <= MOST_IN_PLACE * bare, told) and kept
    return kept


def geometries_are_shared(program, sets, edit, *options):
    """Whether edits of an object's attributes share its geometry: so many, on an object of many points and of few."""

    def bytes_of(points):
        document, _ = growth.one_ring(points)
        runs = [(document, [growth.script([edit(number) for number in range(count)])]) for count in (0, sets)]
        (bare, (_, none, _)), (ran, (_, some, _)) = (program.counts(texts, *options) for texts in runs)
        return some - none, committed(bare, runs[0][1]) and committed(ran, runs[1][1])

    (few, first), (many, last) = (bytes_of(points) for points in (10, 10_000))
    name = f"{sets:,} times {next(iter(edit(0)))}{' before a viewer' if options else ''}"
    told = f"{name} on 10 and on 10,000 points: {few:,} to {many:,} bytes, {many / few:.2f} times"
    return say(many <= MOST_OF_POINTS * few and first and last, told)


def colliding_are_quick(program, kind, count):
    """Whether no text is slow because its points have one hash, if they were hashed so."""
    kept = True
    for name, state in FIRST_STATES.items():
        few, many = (program.instructions(kind(size, state)) for size in (count, 4 * count))
        told = f"{kind.__name__} {name}: {few:,} to {many:,} instructions, {many / few:.2f} times"
        kept = say(many <= MOST_INSTRUCTIONS * few, told) and kept
    return kept


def served(times):
    """The text of scenarios that serve a model of one long attribute, so often in each of three ways."""
    lines = ["let a model", '{"CityObjects":{"r":{"attributes":{"a":"', "repeat 20000 " + "0123456789" * 4]
    lines += ['"},"type":"Road"}},"transform":{"scale":[1,1,1],"translate":[0,0,0]},"type":"CityJSON","version":"2.0"']
    lines += [',"vertices":[]}', ""]
    for number in range(times):
        for verb in ("serve", "texts 2x0", "run"):
            lines += [f"The model is served, {number}", verb, "$a model", "[]", "----", "$a model", ""]
    return "\n".join(lines)


def cities_are_given_back(program, scenarios, times):
    """Whether served runs of one process hold no more at once the more there are."""
    name, most = os.path.join(program.folder, "served.txt"), []
    for number in (times, 10 * times):
        with open(name, "w", encoding="utf-8") as file:
            file.write(served(number))
        ran, (_, _, held) = program.counts_of([os.path.abspath(scenarios), name])
        most += [held if ran.returncode == 0 else sys.maxsize]
    told = f"{3 * times} and {30 * times} served runs: {most[0]:,} and {most[1]:,} bytes at once"
    return say(most[1] <= MOST_OF_RUNS * most[0] < sys.maxsize, told)


def unordered_are_quick(program, kind, count):
    """Whether no text is slow because its members are in no order, or the last come first."""
    few, many = (program.instructions(kind(size)) for size in (count, 4 * count))
    told = f"{kind.__name__}: {few:,} to {many:,} instructions, {many / few:.2f} times"
    return say(many <= MOST_INSTRUCTIONS * few, told)


def newline_is_quick(program, count):
    """Whether files that end in a newline take as long as others with `--decimals`."""
    road = {"type": "Road", "attributes": {"height": 1.5, "length": 20, "name": "road"}}
    texts = growth.model({f"r{number}": road for number in range(count)}), []
    bare, ended = (program.instructions(texts, "--decimals", end=end) for end in ("", "\n"))
    told = f"{count:,} roads with --decimals: {bare:,} instructions, {ended:,} with a newline at the end"
    return say(ended <= MOST_OF_A_NEWLINE * bare, f"{told}, {ended / bare:.2f} times")


def frame_is_quick(program, count):
    """Whether a text is decoded by searches if its transform has fractions."""
    road = {"type": "Road", "attributes": {name: 7 for name in "abcdefgh"}}
    whole = growth.model({f"r{number}": road for number in range(count)})
    bare = program.instructions((whole, []))
    decoded = program.instructions(({**whole, "transform": FINE}, []), "--decimals")
    told = f"{count:,} roads: {bare:,} instructions, {decoded:,} with --decimals and a fine transform"
    return say(decoded <= MOST_OF_A_FRAME * bare, f"{told}, {decoded / bare:.2f} times")


def reads_are_quick(program, scripts):
    """Whether the lines of a report are decoded by searches."""
    road = {"type": "Road", "attributes": {f"n{number}": 7 for number in range(40)}}
    texts = growth.model({"r": road}), [growth.script([{"read": "r"}] * 500)] * scripts
    bare, decoded = (program.instructions(texts, *options) for options in ((), ("--decimals",)))
    told = f"{scripts} scripts of 500 reads: {bare:,} instructions, {decoded:,} with --decimals"
    return say(decoded <= MOST_OF_READS * bare, f"{told}, {decoded / bare:.2f} times")


def rare_bytes_are_quick(program, length):
    """Whether a text is decoded fast that has nothing but a byte that a search looks for."""
    counts = {}
    for byte in "x#bc":
        road = {"type": "Road", "attributes": {"note": byte * length}}
        texts = {**growth.model({"r": road}), "transform": FINE}, []
        counts[byte] = program.instructions(texts, "--decimals")
    told = ", ".join(f"{byte} {count:,}" for byte, count in counts.items())
    most = max(counts.values()) / counts["x"]
    return say(most <= MOST_OF_RARE_BYTES, f"{length:,} bytes with --decimals: {told}, {most:.2f} times")


def workers_sleep(program, count, scripts):
    """Whether workers that wait for others sleep: sixteen of them take little more processor time than one."""
    put = {"type": "Road"}
    meet = [{"put": f"r{number % 7}", "object": put} for number in range(count)]
    listed = [growth.script([{"put": f"own-{number}", "object": put}] * 40 + meet) for number in range(scripts)]
    texts = growth.model({}), listed
    one = min(program.seconds(texts, "--workers", "1") for _ in range(3))
    many = sum(program.seconds(texts, "--workers", "16") for _ in range(6)) / 6
    told = f"{scripts} scripts that meet, of {count:,} puts: {one:.2f} s by one worker, {many:.2f} s by 16"
    return say(many <= MOST_OF_WORKERS * one, f"{told}, {many / one:.2f} times")


def workers_seldom_switch(program, count, scripts):
    """Whether the lock of a run seldom changes hands: four workers wait a few times, however many turns there are."""
    drawn = random.Random(1)
    put = lambda: {"put": f"r{drawn.randrange(13_500)}", "object": {"type": "Road"}}
    texts = growth.model({}), [growth.script([put() for _ in range(count)]) for _ in range(scripts)]
    ran, switches = program.switches(texts, "--workers", "4")
    told = f"{scripts:,} scripts of {count:,} puts by 4 workers: {switches:,} times a worker waited"
    return say(switches <= MOST_SWITCHES and committed(ran, texts[1]), told)


def main():
    if len(sys.argv) not in (2, 3):
        print(__doc__)
        return 2
    with tempfile.TemporaryDirectory() as folder:
        program = Counted(sys.argv[1], folder)
        kept = [grows_as_its_text(program, *kind) for kind in growth.kinds()]
        kept += [locks_leave_their_table(program, count) for count in (300, 4_000)]
        kept += [bodies_are_shared(program, count) for count in (1_000, 20_000)]
        kept += [bodies_are_shared(program, count, "--watch", "1") for count in (1_000, 20_000)]
        for edit in (
            lambda number: {"set": "a", "attributes": {"n": number}},
            lambda number: {"unset": "a", "attributes": [f"n{number}"]},
            lambda number: {"expect": "a", "attributes": {}},
        ):
            kept += [geometries_are_shared(program, 1_000, edit, *options) for options in ((), ("--watch", "1"))]
        for options in ((), ("--workers", "4"), ("--watch", "1")):
            kept += [model_takes_the_text(program, length, *options) for length in (1_000_000, 8_000_000)]
            for what in OF_ONE_ATTRIBUTE:
                kept += [few_take_little_room(program, count, what, *options) for count in (1_000, 20_000)]
        kept += [decoded_in_place(program, *sizes) for sizes in ((10_000, 20), (60_000, 200))]
        kept += [cities_are_given_back(program, scenarios, times) for scenarios in sys.argv[2:] for times in (2, 5)]
        kept += [workers_sleep(program, count, scripts) for count, scripts in ((300, 200), (900, 60))]
        kept += [workers_seldom_switch(program, count, scripts) for count, scripts in ((1_000, 100), (8, 4_000))]
        if shutil.which("valgrind") is None:
            print("instructions aren't counted: valgrind isn't installed")
        else:
            kept += [colliding_are_quick(program, kind, count) for kind, count in COLLIDING.items()]
            kept += [unordered_are_quick(program, kind, count) for kind, count in UNORDERED.items()]
            kept += [newline_is_quick(program, count) for count in (300, 3_000)]
            kept += [frame_is_quick(program, count) for count in (500, 3_000)]
            kept += [reads_are_quick(program, scripts) for scripts in (2, 10)]
            kept += [rare_bytes_are_quick(program, length) for length in (100_000, 1_000_000)]
    return 0 if all(kept) else 1


if __name__ == "__main__":
    sys.exit(main())
