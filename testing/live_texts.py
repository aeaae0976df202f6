"""Lines of live editing that are no requests, or come in pieces, at once, or longer than they may be."""

import collections
import itertools
import json
import random
import subprocess
import threading
import time

import json_texts
from changed_texts import BYTES, Members, arrangements_of, changes_of, objects_in, text_of
from command_texts import attributes, forms, several_faults
from commands import read_scripts
from json_tree import Fault, tree_of
from live_process import SECONDS, Home, Wrong, line_of, ready, require, script, set_to

EITHER = [text for verdict, text in json_texts.texts() if verdict == "either"]
NEARLY_DEEP = 120  # a line may nest a little deeper than a text of its own
LONGEST = 67_108_864  # the most bytes of a line
OBJECTS = {"a": {"type": "Road", "attributes": {"n": 1}}, "b": {"type": "Road"}}
WORDS = {"script", "begin", "do", "commit", "abort", "watch", "look", "ids", "model", "save", "made", "bye"}
# Requests that write nothing, also if they are changed
SAMPLES = [
    {"hand": "h", "id": 1, "script": {"name": "s", "commands": [{"read": "a"}, {"read": "b"}, "abort"]}},
    {"hand": "h", "id": "x", "begin": "t"},
    {"hand": "h", "id": [1, {}], "do": {"expect": "a", "attributes": {"n": 1}}, "vertices": [[0, 0, 0]]},
    {"hand": "h", "commit": True, "key": "k"},
    {"hand": "h", "abort": True},
    {"hand": "h", "watch": True},
    {"hand": "h", "look": ["a", "b"]},
    {"hand": "h", "ids": True},
    {"hand": "h", "made": "k"},
    {"hand": "h", "save": True},
    {"hand": "h", "bye": True},
]


def changed_lines():
    """The samples cut, with bytes removed and replaced, and members removed, renamed, repeated and arranged anew."""
    for sample in SAMPLES:
        line = json.dumps(sample, separators=(",", ":")).encode()
        for at in range(len(line)):
            yield line[:at]
            yield line[:at] + line[at + 1 :]
            for byte in BYTES:
                yield line[:at] + byte + line[at + 1 :]
        yield from changes_of(sample)
        tree = json.loads(line, object_pairs_hook=Members)
        for one in objects_in(tree):
            as_they_were = list(one)
            for arrangement in arrangements_of(as_they_were):
                one[:] = arrangement
                yield text_of(tree).encode()
            one[:] = as_they_were


def json_lines():
    """The table of JSON texts, as a line and as each member of a request; and deep ones."""
    places = [b"%s", b'{"hand":%s,"bye":true}', b'{"hand":"h","id":%s,"look":"a"}', b'{"hand":"h","look":%s}']
    places += [b'{"hand":"h","do":%s}', b'{"hand":"h","script":%s}', b'{"hand":"h","begin":%s}', b'{"more":%s}']
    deep = [b"[" * depth + b"]" * depth for depth in (120, 126, 127, 128, 129, 1000)]
    deep += [b'{"a":' * depth + b"1" + b"}" * depth for depth in (126, 127, 128, 129, 100_000)] + [b"[" * 1_000_000]
    texts = [text for _, text in json_texts.texts()] + deep
    for place, text in itertools.product(places, texts):
        yield place.replace(b"%s", text)


def script_lines():
    """Wrong and right scripts, none of which commits."""
    for _, scripts in itertools.chain(forms(), attributes(), several_faults()):
        try:
            listed = json.loads(scripts)
        except ValueError:
            continue
        for each in listed:
            text = json.dumps(each).replace('"commit"', '"abort"')
            yield b'{"hand":"h","id":7,"script":' + text.encode() + b"}"


def has_to_be(line):
    """What has to come of a line: an error, an end, or either."""
    try:
        tree = tree_of(line)
    except Fault as fault:
        is_deep = b"[" * NEARLY_DEEP in line or b'{"a":' * NEARLY_DEEP in line
        return "either" if fault.args[0] == 3 or is_deep or any(text in line for text in EITHER) else "error"
    if not isinstance(tree, dict) or not isinstance(tree.get("hand"), str) or len(WORDS & tree.keys()) != 1:
        return "error"
    names = [name for name, _ in json.loads(line, object_pairs_hook=Members)]
    if len(names) != len(set(names)):
        return "error"
    if "script" not in tree or set(tree) != {"hand", "id", "script"}:
        return "either"
    try:
        read_scripts(b"[" + json.dumps(tree["script"]).encode() + b"]")
    except Fault:
        return "error"
    return "ended"


def play(program, folder, lines, *options):
    """Sends lines, and behind each one a bye of its hand and a look. Returns the answers to each line."""
    home = Home(folder, OBJECTS)
    live = ready(program, *options, *home.words())

    def feed():
        for number, line in enumerate(lines):
            ends = {"hand": "h", "bye": True}, {"hand": "~", "id": number, "look": "a"}
            if not live.send(line.replace(b"\n", b" ") + b"\n", *ends):
                return

    feeder = threading.Thread(target=feed)
    feeder.start()
    found, now = [], []
    while len(found) < len(lines):
        answer = live.read()
        if answer is None:
            raise Wrong("it ended", lines[len(found)][:300], live.over(), live.told())
        now.append(answer)
        if (answer.get("hand"), answer.get("id")) == ("~", len(found)) and "look" in answer:
            found.append(now[:-1])
            now = []
    feeder.join()
    require(live.model() == (OBJECTS, 0), "garbage has changed the model", live.model())
    status, rest, error = live.end()
    require((status, rest) == (0, []), "status", status, rest, error)
    return found


def judge(number, line, answers):
    """Exactly one answer to a line, then perhaps an end of what it opened, then the bye."""
    wanted = has_to_be(line.replace(b"\n", b" "))
    told = (number, line[:300], answers)
    require(answers and "bye" in answers[-1], "no bye behind a line", *told)
    before = [answer for answer in answers[:-1] if "waits" not in answer]
    require(len(before) >= 1, "no answer", *told)
    first = before[0]
    if "error" in first:
        require(len(before) == 1, "more than one answer", *told)
        error = first["error"]
        require(error.get("line") == 3 * number + 1, "the number of the line", *told)
        require(isinstance(error.get("fault"), str) and error.get("message"), "an error", *told)
    else:
        others = before[1:]
        require(all({"ended", "bye"} & it.keys() for it in others) and len(others) <= 1, "more than one answer", *told)
    require(wanted == "either" or wanted in first, f"wanted: {wanted}", *told)
    return "error" in first


def garbage(program, folder, given):
    """Lines of all kinds of wrong texts: one error each, and nothing is changed."""
    counts = collections.Counter()
    for kind in (changed_lines, json_lines, script_lines):
        lines = list(kind())[:: max(given.stride // 2, 1)]
        for options in ([], ["--decimals"])[: 1 if kind is script_lines else 2]:
            for start in range(0, len(lines), 5_000):
                some = lines[start : start + 5_000]
                for number, (line, answers) in enumerate(zip(some, play(program, folder, some, *options))):
                    if not (options and has_to_be(line) == "either"):
                        counts["errors"] += judge(number, line, answers)
                    counts["lines"] += 1
    return f"{counts['lines']} lines, {counts['errors']} errors"


SESSION = [
    {"hand": "w", "id": "é\U0001f600", "watch": True},
    {"hand": "a", "id": 1, "script": script("s", set_to("a", 1), {"add": "n\n", "object": {"type": "Road"}})},
    {"hand": "b", "id": 2, "begin": "t"},
    {"hand": "b", "id": 3, "do": set_to("b", 2)},
    {"hand": "a", "id": 4, "script": script("waits", set_to("b", 3))},
    b"no JSON\n",
    b"\r\n",
    {"hand": "b", "id": 5, "commit": True},
    {"hand": "a", "id": 6, "look": ["a", "b", "n\n", "none"]},
    {"hand": "a", "id": 7, "model": True},
    {"hand": "a", "bye": True},
]


def outcome(program, folder, pieces, slowly):
    """What a session writes whose input comes in these pieces, and the model that it saves."""
    home = Home(folder, OBJECTS)
    words = [program, "--live", "--output", home.file, home.file]
    process = subprocess.Popen(words, stdin=subprocess.PIPE, stdout=subprocess.PIPE, stderr=subprocess.PIPE, bufsize=0)
    timer = threading.Timer(SECONDS, process.kill)
    timer.start()
    found = []
    listener = threading.Thread(target=lambda: found.append(process.stdout.read()))
    if slowly:
        found.append(process.stdout.readline())
    listener.start()
    for piece in pieces:
        rest = memoryview(piece)
        while rest:
            rest = rest[process.stdin.write(rest) :]
        if slowly:
            time.sleep(0.0004)
    process.stdin.close()
    listener.join()
    process.wait()
    timer.cancel()
    output = b"".join(found)
    return process.returncode, output[output.index(b"\n") + 1 :], process.stderr.read(), home.read("city.json")


def pieces(program, folder, given):
    """A session cut in two at each byte, in bytes, in large pieces, and without its last newline: the same answers."""
    text, choose = b"".join(map(line_of, SESSION)), random.Random(given.seed)
    wanted = outcome(program, folder, [text], False)
    require(wanted[0] == 0 and wanted[1].count(b"\n") >= len(SESSION), "a session", wanted)
    ways = [[text[:at], text[at:]] for at in range(1, len(text), given.stride)]
    ways += [[text[at : at + 1] for at in range(len(text))], [text[:-1]]]
    for way in ways:
        found = outcome(program, folder, way, True)
        require(found == wanted, "in pieces", [len(piece) for piece in way[:2]], found, wanted)
    lines = [{"hand": f"h{n % 8}", "id": n, "script": script(f"s{n}", set_to("ab"[n % 2], n))} for n in range(20_000)]
    text = b"".join(map(line_of, lines))
    wanted = outcome(program, folder, [text], False)
    require(wanted[1].count(b'"committed"') == len(lines), "many lines at once", wanted[1][-300:])
    cuts = sorted(choose.randrange(len(text)) for _ in range(300))
    parts = [text[start:end] for start, end in zip([0, *cuts], [*cuts, len(text)])]
    require(outcome(program, folder, parts, True) == wanted, "many lines in pieces")
    return f"{len(ways)} ways of {len(SESSION)} lines, {len(lines)} lines in {len(parts)} pieces, and at once"


def long_lines(program, folder, _given):
    """Lines about the size of what is read at a time, about the limit, and far beyond it."""
    sizes = [65_535, 65_536, 65_537, 131_072, 1_000_000, LONGEST - 1, LONGEST, LONGEST + 1, 3 * LONGEST]
    home = Home(folder, OBJECTS)
    live = ready(program, *home.words())
    for number, size in enumerate(sizes):
        start, end = b'{"hand":"h","id":%d,"look":"a"' % number, b"}"
        live.send_bytes(start)
        rest = size - len(start) - len(end)
        while rest:
            piece = min(rest, 1 << 20)
            live.send_bytes(b" " * piece)
            rest -= piece
        live.send_bytes(end + b"\n")
        answer = live.read()
        if size <= LONGEST:
            require(answer and answer.get("id") == number and "look" in answer, size, answer, live.told())
        else:
            require(answer and answer.get("error", {}).get("line") == 2 * number + 1, size, answer, live.told())
        require(live.ask(hand="h", look="a")["look"]["object"] == OBJECTS["a"], size, "the next line")
    most = live.memory("VmHWM")
    ended = live.commit("h", "long", {"set": "b", "attributes": {"t": "y" * 3_000_000}})
    require(ended.get("outcome") == "committed", "a long script", ended)
    live.send_bytes(b'{"hand":"h","id":1,"look":"a"}')
    status, rest, error = live.end()
    require(status == 0 and len(rest) == 1 and "look" in rest[0], "a last line without a newline", status, rest, error)
    return f"{len(sizes)} lengths, at most {most:.0f} MiB of memory"
