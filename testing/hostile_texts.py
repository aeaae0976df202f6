#!/usr/bin/env python3
"""Runs cityed on texts that are cut, changed, deep, long, random or broken, and compares it with second_reading.py.

    python3 testing/hostile_texts.py PROGRAM [--seed N] [--only KIND] [--runs N]

PROGRAM is a built cityed. Prints one line for each kind of text with how many were tried, and ends at the first
difference with status 1, the two texts in files and what each side said.
"""

import argparse
import itertools
import json
import os
import random
import re
import subprocess
import sys
import tempfile
from concurrent.futures import ThreadPoolExecutor

import changed_texts
import json_texts
import json_tree
import random_runs
import second_reading as second
from command_texts import attributes, forms, script_text, several_faults
from samples import EMPTY

PUT_AND_READ = (
    b'[{"name":"s","commands":[{"put":"a","object":{"type":"Road","more":%s}},{"read":"a"},"commit"]}]'
)
# a member at the front of a document's top that one behind it takes the place of: no reader of tokens goes on at
# such a number, so the document is read from its tree
ODDITY = b'"type":0.5,'

LIMIT = 120
# how many runs of several workers there have to be, so that one at least ends in another order than the text's
MANY = 50


class Different(Exception):
    """The program and the second reading disagree."""


class Program:
    """A built cityed, called with files."""

    def __init__(self, path, folder):
        self.path, self.folder, self.numbers = path, folder, itertools.count()

    def answer(self, document, scripts, *options):
        """Returns status, output and error text."""
        names = []
        number = next(self.numbers)
        for part, text in (("model", document), ("scripts", scripts)):
            name = os.path.join(self.folder, f"{number}.{part}")
            with open(name, "wb") as file:
                file.write(text)
            names.append(name)
        ran = self.run(document, scripts, *options, *names)
        for name in names:
            os.remove(name)
        return ran.returncode, ran.stdout, ran.stderr

    def run(self, document, scripts, *arguments, **pipes):
        """A call with these arguments, which has to end within a limit of time."""
        try:
            return subprocess.run([self.path, *arguments], capture_output=True, timeout=LIMIT, check=False, **pipes)
        except subprocess.TimeoutExpired:
            raise Different(document, scripts, arguments, f"an end within {LIMIT} seconds") from None

    def compare(self, document, scripts):
        answer = self.answer(document, scripts)
        self.agree(document, scripts, answer, second.run(document, scripts))
        if answer[0] == 0 and len(document) + len(ODDITY) <= json_tree.LONGEST:
            self.agree_by_tree(document, scripts, answer)

    def agree_by_tree(self, document, scripts, answer):
        """A document that is read from its tokens means the same where it is read from its tree."""
        start = document.index(b"{") + 1
        odd = document[:start] + ODDITY + document[start:]
        by_tree = self.answer(odd, scripts)
        if by_tree != answer:
            raise Different(odd, scripts, by_tree, answer)

    def agree(self, document, scripts, answer, wanted):
        output, fault = wanted
        as_wanted = (0, output, b"") if fault is None else (1, b"", fault.encode("utf-8") + b"\n")
        if answer != as_wanted:
            raise Different(document, scripts, answer, as_wanted)


# ---- kinds of texts: each gives pairs of a document and scripts


def nested():
    for depth in range(120, 135):
        arrays, objects = b"[" * depth + b"]" * depth, b'{"a":' * depth + b"1" + b"}" * depth
        mixed = (b'[{"a":' * depth)[: 0 if depth % 2 else None] + b"1" + b"}]" * (0 if depth % 2 else depth)
        for text in (arrays, objects, mixed):
            yield text, b"[]"
            yield EMPTY, text
            yield EMPTY.replace(b'"vertices"', b'"more":' + text + b',"vertices"'), b"[]"
            yield EMPTY, PUT_AND_READ % text
    yield b"[" * 10_000_000, b"[]"
    yield b'{"a":' * 5_000_000, b"[]"
    yield EMPTY, b"[" * 10_000_000


def limits():
    longest = json_tree.LONGEST
    for length in (longest, longest + 1):
        yield EMPTY + b" " * (length - len(EMPTY)), b"[]"
        yield EMPTY, b"[]" + b" " * (length - 2)
        yield b" " * length, b"[]"
    for count in (4095, 4096, 4097):
        yield EMPTY, b"[" + b",".join([script_text(1)] * count) + b"]"
    for count in (1023, 1024, 1025):
        yield EMPTY, b"[" + script_text(count) + b"]"
        yield EMPTY, b"[" + script_text(1) + b"," + script_text(count) + b"," + b'{"name":"t","commands":["commit"]}]'
    yield EMPTY, b"[" + b",".join([script_text(1)] * 4097) + b",0]"


def json_table():
    for _, text in json_texts.texts():
        yield text, b"[]"
        yield EMPTY, text
        yield EMPTY.replace(b'"vertices"', b'"more":' + text + b',"vertices"'), b"[]"
        yield EMPTY, PUT_AND_READ % text


KINDS = [*changed_texts.KINDS, nested, limits, several_faults, forms, attributes, json_table]


def try_kind(program, kind):
    count = 0
    with ThreadPoolExecutor(1 if kind is limits else 4) as pool:
        for _ in pool.map(lambda pair: program.compare(*pair), kind()):
            count += 1
    return count


def verdicts(program):
    """The table of JSON texts by its own word: a text is NotJson exactly where it is invalid."""
    count = 0
    for verdict, text in json_texts.texts():
        _, _, error = program.answer(text, b"[]")
        if verdict != "either" and (error == b"cityed: model: 2 NotJson\n") != (verdict == "invalid"):
            raise Different(text, b"[]", error, verdict)
        count += 1
    return count


NAMED = [
    (b"[" * 128 + b"]" * 128, b"[]", "model: 2 NotJson"),
    (b"[" * 127 + b"]" * 127, b"[]", 'model: 4 NotCityJson "type"'),
    (b" " * 67_108_865, b"[]", "model: 1 TooLong"),
    (EMPTY, b" " * 67_108_865, "scripts: 1 TooLong"),
    (b'{"a":"\xff"}', b"[]", "model: 2 NotJson"),
    (
        EMPTY.replace(b"{}", b'{"a":{"type":"Road","geometry":[{"type":"MultiPoint"}]},"z":{"type":"Foo"}}'),
        b"[]",
        'model: 5 UnknownType "z"',
    ),
    (EMPTY, b'[{"name":"s","commands":["commit","commit"]}]', "scripts: 5 BadScript 0"),
    (EMPTY, b'[{"name":"s","commands":[{"read":1},"commit"]}]', "scripts: 7 BadCommand 0 0"),
    (EMPTY, b'[{"name":"s","commands":[{"mark":"m"},{"back":"m","mark":"m"},"commit"]}]', "scripts: 7 BadCommand 0 1"),
]


def named_faults(program):
    """A few faults by hand, and a text that has no end."""
    for document, scripts, line in NAMED:
        program.agree(document, scripts, program.answer(document, scripts), (None, "cityed: " + line))
    endless = "import sys\nwhile True: sys.stdout.buffer.write(b' ' * 65536)"
    with subprocess.Popen([sys.executable, "-c", endless], stdout=subprocess.PIPE, stderr=subprocess.DEVNULL) as writer:
        ran = program.run(b"", b"", stdin=writer.stdout)
        writer.stdout.close()
        writer.kill()
    program.agree(b"", b"", (ran.returncode, ran.stdout, ran.stderr), (None, "cityed: model: 1 TooLong"))
    return len(NAMED) + 1


def random_texts(program, seed, count):
    """Random documents and scripts, many of them broken, run one at a time."""
    choose = random.Random(seed)
    for _ in range(count):
        program.compare(*random_runs.texts(choose, broken=choose.random() < 0.5))
    return count


def long_lists(program, seed, count):
    """Lawful scripts that attach, detach, delete and put parts, where the lists of two objects have up to 80 ids.

    Two buildings have many parts, or two parts many buildings.
    """
    choose = random.Random(seed)
    for _ in range(count):
        parts, buildings = ([f"{kind}-{number:02}" for number in range(size)] for kind, size in
                            zip(("part", "building"), choose.choice(((80, 2), (2, 80)))))
        choose.shuffle(parts)
        choose.shuffle(buildings)
        there = choose.sample(parts, choose.randrange(len(parts) + 1))
        parents = {part: choose.sample(buildings, choose.randint(1, len(buildings))) for part in there}
        objects = {part: {"type": "BuildingPart", "parents": above} for part, above in parents.items()}
        for building in buildings:
            children = [part for part, above in parents.items() if building in above]
            objects[building] = {"type": "Building", "children": children}
        document = json.dumps({**json.loads(EMPTY), "CityObjects": objects})
        scripts = []
        for _ in range(6):
            commands, after = long_list_commands(choose, parts, buildings, parents)
            end = choose.choice(("commit", "commit", "abort"))
            parents = after if end == "commit" else parents
            scripts.append({"name": "s", "commands": [*commands, end]})
        program.compare(document.encode(), json.dumps(scripts).encode())
    return count


def long_list_commands(choose, parts, buildings, parents):
    """Commands that none refuses, as each part's parents are now, with marks; and the parents afterwards."""
    commands, marked, parents = [], None, dict(parents)
    for _ in range(choose.randrange(200)):
        part, building, kind = choose.choice(parts), choose.choice(buildings), choose.randrange(24)
        above = parents.get(part, [])
        if kind == 0:
            commands.append({"mark": "m"})
            marked = dict(parents)
        elif kind == 1 and marked is not None:
            commands.append({"back": "m"})
            parents = dict(marked)
        elif kind < 4:
            commands.append({"read": choose.choice((building, part)) if above else building})
        elif kind < 6 and above:
            commands.append({"delete": part})
            del parents[part]
        elif building not in above:
            new = [] if above else [{"put": part, "object": {"type": "BuildingPart"}}]
            commands += [*new, {"attach": part, "parent": building}]
            parents[part] = [*above, building]
        elif len(above) > 1:
            commands.append({"detach": part, "parent": building})
            parents[part] = [other for other in above if other != building]
    return commands, parents


def random_workers(program, seed, count):
    """Random lawful documents and scripts, run by several workers."""
    choose = random.Random(seed)
    return by_workers(program, choose, (random_runs.texts(choose, broken=False) for _ in range(count)))


def contended_workers(program, seed, count):
    """Many scripts and long ones that meet at eight objects, run by several workers."""
    choose = random.Random(seed)
    return by_workers(program, choose, (random_runs.contended_texts(choose) for _ in range(count)))


def by_workers(program, choose, pairs):
    """What is written has to be what the scripts give one at a time in the order of the report."""
    counts = {"agree": 0, "by several": 0, "in another order": 0}
    for document, scripts in pairs:
        workers, viewers = choose.choice([1, 2, 4, 16]), choose.choice([0, 1, 4])
        status, output, error = program.answer(document, scripts, "--workers", str(workers), "--watch", str(viewers))
        report = ends_in(output, scripts)
        wanted, _ = second.run(document, scripts, report)
        commits = output.count(b'"outcome":"committed"')
        if (status, output) != (0, wanted) or not are_seen(error, viewers, commits):
            raise Different(document, scripts, (status, output, error), wanted)
        counts["agree"] += 1
        counts["by several"] += workers > 1
        counts["in another order"] += [end["script"] for end in report] != sorted(end["script"] for end in report)
    if counts["by several"] >= MANY and counts["in another order"] == 0:
        raise Different(document, scripts, counts, "some runs that end in another order than the text's")
    return f"{counts['agree']}, of which {counts['in another order']} ended in another order than the text's,"


def ends_in(output, scripts):
    """The report's ends: each script once, begun before it ended, and none for want of memory: there is enough."""
    ends = [json.loads(line) for line in output.splitlines()[:-1]]
    if any(end["outcome"] == "nomemory" for end in ends):
        raise Different(b"", scripts, output, "no end for want of memory")
    each_once = sorted(end["script"] for end in ends) == list(range(len(json.loads(scripts))))
    if not each_once or any(not 0 <= end["since"] <= place for place, end in enumerate(ends)):
        raise Different(b"", scripts, output, "each script once, begun before it ended")
    return ends


def are_seen(error, viewers, commits):
    """One line for each viewer, its numbers rising strictly up to that of the commits."""
    lines = error.decode("utf-8").splitlines()
    for number, line in enumerate(lines):
        match = re.fullmatch(rf"viewer {number}: ([0-9 ]+)", line)
        seen = [int(word) for word in match.group(1).split()] if match else []
        if not seen or seen[-1] != commits or any(a >= b for a, b in zip(seen, seen[1:])):
            return False
    return len(lines) == viewers


def tell(different):
    document, scripts, answer, wanted = different.args
    folder = tempfile.mkdtemp(prefix="cityed-different-")
    for name, text in (("model", document), ("scripts", scripts)):
        with open(os.path.join(folder, name), "wb") as file:
            file.write(text)
    print(f"DIFFERENT: {folder}/model {folder}/scripts")
    print(f"  the program: {str(answer)[:600]}\n  wanted: {str(wanted)[:600]}")


def main():
    asked = argparse.ArgumentParser(description=__doc__, formatter_class=argparse.RawDescriptionHelpFormatter)
    asked.add_argument("program")
    asked.add_argument("--seed", type=int, default=1)
    asked.add_argument("--only")
    asked.add_argument("--runs", type=int, default=2000)
    asked = asked.parse_args()
    with tempfile.TemporaryDirectory() as folder:
        program = Program(os.path.abspath(asked.program), folder)
        tries = [(kind.__name__, lambda kind=kind: try_kind(program, kind)) for kind in KINDS]
        tries.append(("verdicts", lambda: verdicts(program)))
        tries.append(("named_faults", lambda: named_faults(program)))
        tries.append(("random_texts", lambda: random_texts(program, asked.seed, asked.runs)))
        tries.append(("long_lists", lambda: long_lists(program, asked.seed, asked.runs // 10)))
        tries.append(("random_workers", lambda: random_workers(program, asked.seed, asked.runs // 4)))
        tries.append(("contended_workers", lambda: contended_workers(program, asked.seed, asked.runs // 20)))
        for name, attempt in tries:
            if asked.only in (None, name):
                try:
                    print(f"{name}: {attempt()} agree", flush=True)
                except Different as different:
                    print(name)
                    tell(different)
                    return 1
    return 0


if __name__ == "__main__":
    sys.exit(main())
