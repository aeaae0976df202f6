#!/usr/bin/env python3
"""Refuses calls of cityed in turn: each for memory or a thread, each read, each write and each step on a file that
--output replaces; and kills it before each such step.

    python3 testing/refused_calls.py PROGRAM

PROGRAM is a built cityed. Needs a C compiler named cc, for refuse.c. After a refusal the program answers that
memory was short with nothing written, or writes a report that second_reading.py agrees with, in which a script
may have ended for want of memory. Prints one line for each kind with how many calls were refused, and ends at the
first other answer with status 1.
"""

import itertools
import json
import os
import signal
import sys
import tempfile

import second_reading as second
from refusals import Refused
from samples import sample

SHORT_ANSWER = b"cityed: out of memory\n"
CREWS = ([], ["--workers", "2"], ["--workers", "4", "--watch", "2"], ["--workers", "16", "--watch", "1"])


class Wrong(Exception):
    """The program answered something else than it should."""


def refuse_growths(program, document, scripts, arguments, later):
    """Refuses the Nth growth (and each later one), for each N until a run meets none."""
    text = document.replace(b"\n", b" ") + b"\n" + scripts
    counts = {"refused": 0, "answered": 0}
    for number in itertools.count(1):
        refused, status, output, error = program.answer(arguments, text, REFUSE_GROWTH=f"{number}{later}")
        if status == 1 and output == b"" and error == SHORT_ANSWER:
            counts["refused"] += 1
        elif is_run(output, document, scripts) and (status == 0 or error.endswith(SHORT_ANSWER)):
            counts["answered"] += 1
        else:
            raise Wrong(arguments, f"growth {number}{later}", status, output, error)
        if not refused:
            return f"{number - 1} growths: {counts['refused']} out of memory, {counts['answered'] - 1} went on"


def threads_of(arguments):
    """How many threads a run with these options starts: its own is the first worker."""
    asked = dict(zip(arguments[::2], map(int, arguments[1::2])))
    return asked.get("--workers", 1) - 1 + asked.get("--watch", 0)


def refuse_threads(program, document, scripts, arguments):
    """Refuses the Nth thread, for each N until a run meets none: one for each worker but the first, and each viewer."""
    text = document.replace(b"\n", b" ") + b"\n" + scripts
    for number in itertools.count(1):
        refused, status, output, error = program.answer(arguments, text, REFUSE_THREAD=str(number))
        if not refused:
            break
        if (status, output, error) != (1, b"", SHORT_ANSWER):
            raise Wrong(arguments, f"thread {number}", status, output, error)
    if number - 1 != threads_of(arguments):
        raise Wrong(arguments, f"{number - 1} threads")
    return number - 1


def is_run(output, document, scripts):
    """Whether this is the output of a run. What viewers saw is told after it, and may find no memory by itself."""
    report = [json.loads(line) for line in output.splitlines()[:-1]]
    return output == second.run(document, scripts, report)[0]


def refuse_reads(program, folder, document, scripts):
    """Refuses the Nth read, for each N until a run meets none, from files and from standard input, byte by byte."""
    names = [os.path.join(folder, name) for name in ("model", "scripts")]
    for name, text in zip(names, (document, scripts)):
        with open(name, "wb") as file:
            file.write(text)
    one_line = document.replace(b"\n", b" ") + b"\n" + scripts
    return sum(refuse_each_read(program, arguments, text) for arguments, text in ((names, b""), ([], one_line)))


def refuse_each_read(program, arguments, text):
    for number in itertools.count(1):
        refused, status, output, error = program.answer(arguments, text, REFUSE_READ=str(number), SHORT="1")
        if not refused:
            return number - 1
        if (status, output, error) != (1, b"", b"cityed: cannot read\n"):
            raise Wrong(arguments, f"read {number}", status, output, error)


def refuse_writes(program, document, scripts):
    """Refuses the Nth write, for each N until a run meets none; each write before it moved one byte."""
    text, wanted = document.replace(b"\n", b" ") + b"\n" + scripts, second.run(document, scripts)[0]
    for number in itertools.count(1):
        refused, status, output, error = program.answer([], text, REFUSE_WRITE=str(number), SHORT="1")
        if not refused:
            return number - 1
        if (status, output, error) != (1, wanted[: number - 1], b"cityed: cannot write\n"):
            raise Wrong([], f"write {number}", status, output, error)


def withhold(program, document):
    """Refuses the Nth growth of a run with --atomic: where a script ran out of memory, no model is written."""
    scripts = json.dumps([{"name": f"n{k}", "commands": [{"put": f"road {k}", "object": {"type": "Road"}}, "commit"]} for k in range(3)])
    text, counts = document.replace(b"\n", b" ") + b"\n" + scripts.encode(), {"memory": 0, "all": 0, "none": 0}
    wanted = second.run(document, scripts.encode())[0]
    for number in itertools.count(1):
        refused, status, output, error = program.answer(["--atomic"], text, REFUSE_GROWTH=str(number))
        outcomes = [json.loads(line).get("outcome") for line in output.splitlines()]
        if (status, output, error) == (1, b"", SHORT_ANSWER):
            counts["memory"] += 1
        elif (status, output, error) == (0, wanted, b""):
            counts["all"] += 1
        elif (status, error) == (3, b"") and len(outcomes) == 3 and "nomemory" in outcomes and None not in outcomes:
            counts["none"] += 1
        else:
            raise Wrong("--atomic", f"growth {number}", status, output, error)
        if not refused:
            return counts


class Replaced:
    """A model's own file that is replaced, and the scripts, in a folder of their own."""

    OWNER = (1, 7, 0o6640) if os.geteuid() == 0 else (os.getuid(), os.getgid(), 0o640)

    def __init__(self, folder, document, scripts):
        self.place = tempfile.mkdtemp(dir=folder)
        names = ("city.json", "edits.json", "link")
        self.city, self.edits, self.link = (os.path.join(self.place, name) for name in names)
        for name, text in ((self.city, document), (self.edits, scripts)):
            with open(name, "wb") as file:
                file.write(text)
        os.symlink("city.json", self.link)
        owner, group, mode = self.OWNER
        os.chown(self.city, owner, group)
        os.chmod(self.city, mode)

    def left(self):
        with open(self.city, "rb") as file:
            return file.read()

    def others(self):
        """What is beside the file, by its ending: the digits of a new file are left out."""
        names = set(os.listdir(self.place)) - {"city.json", "edits.json", "link"}
        return sorted(name.rstrip("0123456789abcdef") if not name.endswith("lock") else name for name in names)

    def hold_owner(self, *told):
        """Owner, group and mode are the old ones; where one isn't, no bit lends its rights."""
        found = os.stat(self.city)
        owner, group, mode = self.OWNER
        kept = (found.st_uid, found.st_gid) == (owner, group)
        if found.st_mode & 0o7777 != (mode if kept else mode & 0o1777):
            raise Wrong("owner and mode", found, *told)
        if not os.path.islink(self.link):
            raise Wrong("no link any more", *told)
        return kept


NEW, LOCK = "city.json.cityed-", "city.json.cityed-lock"


def replace_files(program, folder, document, scripts):
    """Refuses the Nth step of replacing the model's own file, by its name and through a link, and kills the program
    before it, for each N until a run meets none. The file is the old one or the new one, whole; what is left over
    beside it has a name of its own, and keeps no later run from it."""
    wanted = second.run(document, scripts)[0]
    cut = wanted.rindex(b"\n", 0, -1) + 1
    report, model = wanted[:cut], wanted[cut:]
    counts = {"refused": 0, "killed": 0, "new": 0, "went on": 0}
    for way, is_link in itertools.product(("REFUSE_STEP", "KILL_STEP"), (False, True)):
        for number in itertools.count(1):
            it = Replaced(folder, document, scripts)
            arguments = ["--output", it.link if is_link else it.city, it.city, it.edits]
            refused, status, output, error = program.answer(arguments, b"", **{way: str(number)})
            left, others, told = it.left(), it.others(), (status, output, error)
            if left not in (document, model):
                raise Wrong(arguments, way, number, "file", told, left)
            kept = it.hold_owner(way, number, told)
            if not refused:
                if told != (0, report, b"") or left != model or others or not kept:
                    raise Wrong(arguments, way, number, *told, others)
                break
            counts["new"] += left == model
            if left == model and output != report:
                raise Wrong(arguments, way, number, "renamed before the report", told)
            if way == "KILL_STEP":
                counts["killed"] += 1
                if status != -signal.SIGKILL or not report.startswith(output):
                    raise Wrong(arguments, way, number, *told)
                if others not in ([], [NEW], [LOCK], [NEW, LOCK]):
                    raise Wrong(arguments, way, number, "left over", others)
            else:
                counts["refused"] += 1
                counts["went on"] += status == 0
                hold_refusal(told, left, report, model, others, arguments, number)
            go_on_after(program, it, arguments, second.run(left, scripts)[0], others)
    counts["reads"] = refuse_reads_of_replaced(program, folder, document, scripts, report)
    it = Replaced(folder, document, scripts)
    for number in itertools.count(1):
        with open(it.city, "wb") as file:
            file.write(document)
        words = ["-o", it.city, it.city, it.edits]
        refused, status, output, error = program.answer(words, b"", REFUSE_WRITE=str(number), SHORT="1")
        if not refused:
            return counts, number - 1
        if (status, output, error) != (1, report[: number - 1], b"cityed: cannot write\n") or it.left() != document:
            raise Wrong("write of the report", number, status, output, error)
        if it.others():
            raise Wrong("left over", it.others())


def hold_refusal(told, left, report, model, others, *words):
    """A refused step is told, and leaves nothing; or the run can do without it."""
    status, output, error = told
    if status == 0:
        # owner or group couldn't be given, the lock's file not removed, the scripts' file not compared
        if (output, error, left) != (report, b"", model) or others not in ([], [LOCK]):
            raise Wrong(*words, *told, others)
    elif error == b"cityed: cannot read\n":
        if (status, output) != (1, b"") or left == model or others:
            raise Wrong(*words, *told, others)
    elif (status, error) != (1, b"cityed: cannot write\n") or output not in (b"", report):
        raise Wrong(*words, *told)
    elif others not in ([], [LOCK]) or (others and output):
        # a file that can't be locked isn't removed either: another run may have locked it
        raise Wrong(*words, *told, others)


def go_on_after(program, it, arguments, wanted, others):
    """The next run takes the lock's file that is left over, and leaves none."""
    cut = wanted.rindex(b"\n", 0, -1) + 1
    told = program.answer(arguments, b"")
    if told != (False, 0, wanted[:cut], b"") or it.left() != wanted[cut:]:
        raise Wrong(arguments, "the next run", told)
    if it.others() != [name for name in others if name == NEW]:
        raise Wrong(arguments, "the next run", it.others())


def refuse_reads_of_replaced(program, folder, document, scripts, report):
    """Refuses the Nth read: of the model, of the scripts, or of the file when it is looked at again."""
    for number in itertools.count(1):
        it = Replaced(folder, document, scripts)
        arguments = ["-o", it.city, it.city, it.edits]
        refused, *told = program.answer(arguments, b"", REFUSE_READ=str(number))
        if not refused:
            if told != [0, report, b""]:
                raise Wrong(arguments, "read", number, *told)
            return number - 1
        if told not in ([1, b"", b"cityed: cannot read\n"], [1, report, b"cityed: cannot write\n"]):
            raise Wrong(arguments, "read", number, *told)
        if it.left() != document or it.others():
            raise Wrong(arguments, "read", number, it.left(), it.others())


def replaced_once_opened(program, folder, document, scripts):
    """Another program replaces the model's file between its opening and its first look: it stays as that one left it."""
    report = second.run(document, scripts)[0]
    report = report[: report.rindex(b"\n", 0, -1) + 1]
    names = ("city.json", "./city.json")
    for name, is_link in itertools.product(names, (False, True)):
        it = Replaced(folder, document, scripts)
        model, other = os.path.join(it.place, name), document + b" "
        with open(model + ".other", "wb") as file:
            file.write(other)
        arguments = ["-o", it.link if is_link else it.city, model, it.edits]
        told = program.answer(arguments, b"", REPLACE=model)
        if told != (True, 1, report, b"cityed: model changed\n") or it.left() != other or it.others():
            raise Wrong(arguments, *told, it.left())
    return 2 * len(names)


def go_on(program, document, scripts):
    """Reads and writes that are short or interrupted change nothing."""
    text, wanted = document.replace(b"\n", b" ") + b"\n" + scripts, second.run(document, scripts)[0]
    ways = [{"SHORT": "1"}, {"INTERRUPT": "1"}, {"SHORT": "1", "INTERRUPT": "1"}]
    for way in ways:
        if program.answer([], text, **way) != (False, 0, wanted, b""):
            raise Wrong([], way)
    return len(ways)


def main():
    if len(sys.argv) != 2:
        print(__doc__)
        return 2
    document, scripts = sample("sample.city.json"), sample("sample.scripts.json")
    with tempfile.TemporaryDirectory() as folder:
        program = Refused(sys.argv[1], folder)
        try:
            for arguments, later in itertools.product(CREWS, ("", "-")):
                told = refuse_growths(program, document, scripts, arguments, later)
                print(f"{' '.join(arguments) or 'one worker'}{', and each later one' if later else ''}: {told}", flush=True)
            for arguments in CREWS:
                told = refuse_threads(program, document, scripts, arguments)
                print(f"{' '.join(arguments) or 'one worker'}: {told} threads refused", flush=True)
            print(f"reads: {refuse_reads(program, folder, document, scripts)} refused", flush=True)
            print(f"writes: {refuse_writes(program, document, scripts)} refused", flush=True)
            print(f"with --atomic, growths: {withhold(program, document)}", flush=True)
            told, writes = replace_files(program, folder, document, scripts)
            print(
                f"files replaced: {told['refused']} steps refused ({told['went on']} went on), {told['killed']} kills,"
                f" {told['new']} times the file was the new one; {told['reads']} reads and {writes} writes of the report"
                " refused",
                flush=True,
            )
            told = replaced_once_opened(program, folder, document, scripts)
            print(f"replaced by another program once opened: {told} as they should be", flush=True)
            print(f"short and interrupted: {go_on(program, document, scripts)} ways agree", flush=True)
        except Wrong as wrong:
            print("WRONG:", *(str(part)[:800] for part in wrong.args))
            return 1
    return 0


if __name__ == "__main__":
    sys.exit(main())
