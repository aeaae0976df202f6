"""Live runs in which steps on the journal and on FILE are refused in turn, that are killed before such steps, or whose
disk is full."""

import collections
import itertools
import os
import re
import resource
import shutil
import signal
import subprocess
from concurrent.futures import ThreadPoolExecutor

from live_process import SECONDS, Home, Live, line_of, ready, replayed, require, script, scripts_in, set_to
from refusals import Refused

OBJECTS = {name: {"type": "LandUse"} for name in ("o0", "o1")}
EDITS = range(1, 7)
CREW = 3  # so many lives at once


def edit(number):
    """Commands that leave three traces of a number, which are all there or none is."""
    return [{"add": f"n{number}", "object": {"type": "LandUse"}}, set_to("o0", number), set_to("o1", number)]


def by_script(live, number):
    answer = live.ask(hand="a", script=script(f"s{number}", *edit(number)), key=f"k{number}")
    return outcome(answer)


def by_transaction(live, number):
    """Commands one by one, and a commit: one that can't be written leaves the transaction open, and is tried again."""
    for request in [{"begin": "t"}, *({"do": command} for command in edit(number))]:
        answer = live.ask(hand="b", **request)
        if answer is None:
            return None
        require({"began", "reply"} & answer.keys(), request, answer)
    told = outcome(live.ask(hand="b", commit=True))
    if told == "refused":
        told = outcome(live.ask(hand="b", commit=True))
    if told == "refused":
        answer = live.ask(hand="b", abort=True)
        require(answer is None or answer["ended"]["outcome"] == "aborted", answer)
    return told


def outcome(answer):
    """What is told of a commit: committed, refused, or None where nothing is told."""
    if answer is None:
        return None
    if "error" in answer:
        require(answer["error"]["fault"] == "CannotWrite", "an error", answer)
        return "refused"
    require("ended" in answer and answer["ended"]["outcome"] == "committed", "an end", answer)
    return "committed"


def life(live, first=0):
    """Edits with two saves among them. Returns what is told of each, by its number."""
    told = {}
    for number in EDITS:
        if number in (3, 5):
            answer = live.ask(hand="s", save=True)
            if answer is None:
                break
            require("saved" in answer or answer["error"]["fault"] == "CannotWrite", "a save", answer)
        told[first + number] = (by_script if number % 3 else by_transaction)(live, first + number)
        if told[first + number] is None:
            break
    return told


class Refusing:
    """A program some of whose calls are refused."""

    def __init__(self, program, folder):
        self.program, self.library = program, Refused(program, folder).library

    def live(self, home, **refusals):
        """A live run, and the end of a pipe that has a byte for each refusal."""
        told, tells = os.pipe()
        os.set_blocking(tells, False)
        os.set_blocking(told, False)
        variables = {**os.environ, "LD_PRELOAD": self.library, "PRELOAD": self.library, "REFUSED_FD": str(tells)}
        live = Live(self.program, *home.words(), env={**variables, **refusals}, pass_fds=[tells])
        os.close(tells)
        return live, told


def was_refused(told):
    try:
        found = os.read(told, 1)
    except BlockingIOError:
        found = b""
    os.close(told)
    return found != b""


def judge(program, home, told, before, way):
    """What a start finds: each number that was told, none that was refused, and of the last perhaps all."""
    live = ready(program, *home.words())
    objects, version = live.model()
    found = {int(name[1:]) for name in objects if name.startswith("n")}
    committed = before | {number for number, what in told.items() if what == "committed"}
    unknown = {number for number, what in told.items() if what is None}
    require(committed <= found <= committed | unknown, way, "edits", told, "found", found, live.told())
    require(version == len(found) == live.first["version"], way, "version", version, found)
    last = {objects[name].get("attributes", {}).get("n", 0) for name in OBJECTS}
    require(last == {max(found, default=0)}, way, "an edit in half", objects)
    for number in found:
        if number % 3 and number not in before:
            made = live.ask(hand="x", made=f"k{number}")
            require(made.get("made"), way, f"the key of edit {number}", made)
    require(outcome(live.ask(hand="x", script=script("on", set_to("o0", -1)))) == "committed", way, "goes on")
    status, _, error = live.end()
    require(status == 0, way, "status of the start after", status, error)
    return len(found)


def try_step(refusing, program, room, kind, number, first_life):
    """One life with one refusal or kill. Returns what came of it, or None if no call was refused."""
    way, later, more = kind
    home = first_life.copy(room) if first_life else Home(room, OBJECTS)
    before = set(EDITS) if first_life else set()
    state = home.state()
    live, pipe = refusing.live(home, **{way: f"{number}{later}"}, **more)
    words = (home.root, way, f"{number}{later}", *more)
    if live.first is None:
        status, told, error = live.over(), {}, live.told()
        if way == "REFUSE_STEP":
            require(status == 1 and error.startswith("cityed: "), *words, "a start", status, error)
            kept = {name: text for name, text in home.state().items() if name in state}
            require(kept == state, *words, "a start that is refused has touched a file", kept, state)
    else:
        told = life(live, len(before))
        status, _, error = live.end()
    if not was_refused(pipe):
        require(status == 0 and set(told.values()) == {"committed"}, *words, status, told, error)
        return None
    if way == "KILL_STEP":
        require(status == -signal.SIGKILL, *words, "isn't killed", status, error)
    else:
        require(status in (0, 1) and (status == 0 or error.startswith("cityed: ")), *words, status, error)
    judge(program, home, told, before, words)
    lost = [name for name in home.strays() if not name.endswith("-lock")]
    # (where all later steps are refused, a new file can't be removed either)
    require(way == "KILL_STEP" or later or not lost, *words, "left over", lost)
    scripts = scripts_in(home)
    require(replayed(program, room, home.base, scripts) == home.read("city.json"), *words, "the journals' scripts")
    return "went on" if status == 0 else "ended"


KINDS = [("REFUSE_STEP", "", {}), ("REFUSE_STEP", "-", {}), ("KILL_STEP", "", {}), ("REFUSE_STEP", "", {"SHORT": "1"})]


def steps(program, folder, given):
    """Each step on a file is refused in turn, that one and all later ones, by bytes; and killed before it."""
    refusing, counts = Refusing(program, folder), collections.Counter()
    first_life = Home(folder, OBJECTS)
    live = ready(program, *first_life.words())
    require(set(life(live).values()) == {"committed"}, "a life without refusals")
    live.kill()
    for kind, start in itertools.product(KINDS, (None, first_life)):
        stride = given.stride if "SHORT" not in kind[2] else 53 * given.stride
        with ThreadPoolExecutor(CREW) as pool:
            for begin in itertools.count(1, stride * CREW * 4):
                numbers = range(begin, begin + stride * CREW * 4, stride)
                found = pool.map(lambda number: try_step(refusing, program, folder, kind, number, start), numbers)
                came, name = list(found), f"{kind[0].lower()}{kind[1]}{' bytes' if kind[2] else ''}"
                counts.update(f"{name} {it}" for it in came if it)
                if None in came:
                    break
    return ", ".join(f"{count} {name}" for name, count in counts.items())


def bounded(live, limit):
    """Sets how long a file may become that a process writes."""
    _, most = resource.prlimit(live.process.pid, resource.RLIMIT_FSIZE)
    resource.prlimit(live.process.pid, resource.RLIMIT_FSIZE, (most if limit is None else limit, most))


def ignore_signal():
    signal.signal(signal.SIGXFSZ, signal.SIG_IGN)


def limits(program, folder, given):
    """The journal can't grow beyond a limit: the commit isn't made, and once there is room others are."""
    count = 0
    for room in range(0, 420, 7 * given.stride):
        home = Home(folder, OBJECTS)
        live = ready(program, *home.words(), preexec_fn=ignore_signal, restore_signals=False)
        told = {1: by_script(live, 1)}
        bounded(live, os.path.getsize(home.journal) + room)
        told |= {2: by_script(live, 2), 3: by_transaction(live, 3), 4: by_script(live, 4)}
        require(None not in told.values(), home.root, room, "ended", told, live.told())
        text = home.read("journal")
        require(text.endswith(b"\n"), home.root, room, "the journal isn't cut back to what was whole", text[-200:])
        bounded(live, None)
        told |= {5: by_script(live, 5), 6: by_transaction(live, 6)}
        require({told[5], told[6]} == {"committed"}, home.root, room, "no commit once there is room", told)
        live.kill()
        judge(program, home, told, set(), (home.root, room))
        count += list(told.values()).count("refused")
    return f"{count} commits refused"


def full(program, folder, _given):
    """A small disk fills up under a live run, and is freed again."""
    disk = os.path.join(folder, "disk")
    os.mkdir(disk)
    mount = ["mount", "-t", "tmpfs", "-o", "size=128k", "none", disk]
    if subprocess.run(mount, capture_output=True, check=False).returncode:
        return "not tried, since nothing can be mounted here"
    try:
        return fill(program, disk)
    finally:
        subprocess.run(["umount", "-l", disk], check=False)


def fill(program, disk):
    home = Home(disk, OBJECTS)
    live = ready(program, *home.words())
    told = {1: by_script(live, 1)}
    with open(os.path.join(disk, "filler"), "wb", buffering=0) as file:
        for size in (4096, 1):
            try:
                while file.write(b"x" * size):
                    pass
            except OSError:
                pass
    number = 2
    while told[number - 1] == "committed" and number < 10_000:
        told[number] = by_script(live, number)
        number += 1
    require(told[number - 1] == "refused", "a full disk", number, told[number - 1], live.told())
    answer = live.ask(hand="s", save=True)
    require(answer and "error" in answer, "a save on a full disk", answer)
    require(live.model()[1] == number - 2, "version", live.model()[1], number)
    os.remove(os.path.join(disk, "filler"))
    told[number] = by_script(live, number)
    require(told[number] == "committed", "no commit once there is room", told[number], live.told())
    require("saved" in live.ask(hand="s", save=True), "no save once there is room", live.told())
    live.kill()
    judge(program, home, told, set(), (home.root, "full disk"))
    return f"{number - 2} commits until it is full"


def order(program, folder, _given):
    """No answer to a commit is written before a sync behind the line of the commit, as strace sees it."""
    if shutil.which("strace") is None:
        return "not tried, since there is no strace"
    home, trace = Home(folder, OBJECTS), os.path.join(folder, "trace")
    requests = [{"hand": f"h{n % 8}", "script": script("s", set_to(f"o{n % 2}", n))} for n in range(4_000)]
    for place in (3_000, 1_000, 0):
        requests.insert(place, {"hand": "s", "save": True})
    words = ["strace", "-e", "trace=write,fdatasync,fsync", "-s", "4000000", "-o", trace, program, "--live"]
    text = b"".join(map(line_of, requests))
    ran = subprocess.run([*words, *home.words()], input=text, capture_output=True, timeout=SECONDS, check=False)
    if ran.returncode and not ran.stdout:
        return "not tried, since strace may not trace here"
    require(ran.stdout.count(b'"committed"') == 4_000, "commits", ran.stdout[-300:], ran.stderr)
    noted = synced = syncs = 0
    with open(trace, encoding="utf-8", errors="replace") as file:
        for line in file:
            if line.startswith(("fdatasync(", "fsync(")) and line.rstrip().endswith("= 0"):
                synced, syncs = noted, syncs + 1
            elif line.startswith("write(1, "):
                told = max(map(int, re.findall(r'\\"committed\\".*?\\"version\\":(\d+)', line)), default=0)
                require(told <= synced, "told before it is synced", f"told {told}, synced {synced}")
            elif r'\"script\":' in line:
                noted = max([noted, *map(int, re.findall(r'\\"version\\":(\d+)\}\\n', line))])
    require(synced == 4_000, "versions that were synced", synced)
    return f"4000 commits, {syncs} syncs"
