#!/usr/bin/env python3
"""Runs cityed with closed streams and with output files of all kinds, and compares all that there is afterwards.

    python3 testing/output_files.py PROGRAM [--only KIND]

PROGRAM is a built cityed. The output file is the old one or exactly the model, a link stays a link, and nothing is left
beside it. Some cases need root, who may give files away. Prints a line for each kind with the number of cases, and ends
at the first other answer with status 1.
"""
import argparse
import itertools
import os
import pty
import resource
import select
import shutil
import signal
import stat
import subprocess
import sys
import tempfile
import threading

import statuses
from statuses import REFUSED, SCRIPTS

LIMIT = 60
OLD, MODEL, REPORT = (text.encode() for text in (statuses.DOCUMENT, statuses.LEFT, statuses.REPORT))
REFUSED_REPORT, NAMED = statuses.REFUSED_LINE.encode(), statuses.NAMED.encode()
UNREAD, UNWRITTEN = b"cityed: cannot read\n", b"cityed: cannot write\n"
OTHER_USER = 65534


class Wrong(Exception):
    """The program answered something else than it should."""


class Place:
    """A folder with a model and scripts, which is the program's working folder."""

    def __init__(self, folder, edits=SCRIPTS):
        self.root = tempfile.mkdtemp(dir=folder)
        self.write("M", OLD)
        self.write("S", edits.encode())
        os.mkdir(self.path("sub"))
        os.chmod(self.root, 0o755)

    def path(self, name):
        return os.path.join(os.fsencode(self.root), os.fsencode(name))

    def write(self, name, text):
        with open(self.path(name), "wb") as file:
            file.write(text)

    def read(self, name):
        """What a file has. None if it isn't there."""
        try:
            with open(self.path(name), "rb") as file:
                return file.read()
        except FileNotFoundError:
            return None

    def names(self):
        walk = os.walk(os.fsencode(self.root))
        return sorted(os.path.join(at, name) for at, folders, files in walk for name in folders + files)

    def run(self, program, *words, text=b"", before=None, **more):
        """Status, output and standard error."""
        ran = subprocess.run(
            [program, *words], input=text, capture_output=True, cwd=self.root, timeout=LIMIT, check=False,
            preexec_fn=before, **more
        )
        return ran.returncode, ran.stdout, ran.stderr


def hold(place, told, wanted, files, names, *words):
    """What was told, what these files have, and that no other name came."""
    if told != wanted:
        raise Wrong(words, told, wanted)
    for name, text in files.items():
        if place.read(name) != text:
            raise Wrong(words, name, place.read(name))
    if place.names() != names:
        raise Wrong(words, "names", set(place.names()) ^ set(names))


def closing(numbers):
    def close():
        for number in numbers:
            os.close(number)

    return close


def closed(program, folder):
    """Each combination of closed streams. The file is the old one, or the model and nothing else."""
    count = 0
    shut = [it for size in range(4) for it in itertools.combinations((0, 1, 2), size)]
    ways = ("files", "link", "new", "dangling", "input", "scripts", "device")
    for numbers, atomic, way, refused in itertools.product(shut, (False, True), ways, (False, True)):
        place = Place(folder, REFUSED if refused else SCRIPTS)
        os.symlink("M", place.path("link"))
        os.symlink("new", place.path("dangling"))
        target = {"files": "M", "link": "M", "input": "M", "scripts": "M", "device": "M"}.get(way, "new")
        name = {"link": "link", "dangling": "dangling", "device": "/dev/null"}.get(way, target)
        words = ["-o", name] + ["--atomic"] * atomic
        words += {"input": [], "scripts": [name, "/dev/stdin"]}.get(way, ["M", "S"])
        edits = (REFUSED if refused else SCRIPTS).encode()
        text = {"input": OLD + b"\n" + edits, "scripts": edits}.get(way, b"")
        names = place.names()
        report, left = (REFUSED_REPORT, OLD + b"\n") if refused else (REPORT, MODEL)
        if 0 in numbers and way in ("input", "scripts"):
            status, output, error, written = 1, b"", UNREAD, False
        elif 1 in numbers:
            status, output, error, written = 1, b"", UNWRITTEN, False
        elif atomic and refused:
            status, output, error, written = 3, report, b"", False
        else:
            status, output, error, written = 0, report, b"", way != "device"
        wanted = (status, b"" if 1 in numbers else output, b"" if 2 in numbers else error)
        told = place.run(program, *words, text=text, before=closing(numbers))
        if written:
            names = sorted({*names, place.path(target)})
        files = {"M": OLD, **({target: left} if written else {})}
        hold(place, told, wanted, files, names, "closed", numbers, words)
        if not (os.path.islink(place.path("link")) and os.path.islink(place.path("dangling"))):
            raise Wrong("closed", numbers, words, "no link any more")
        count += 1
    return count


def without_output(program, folder):
    """Closed streams without --output: a report that can't be written is status 1, and no file is touched."""
    count = 0
    shut = [it for size in range(4) for it in itertools.combinations((0, 1, 2), size)]
    for numbers, way in itertools.product(shut, ("files", "input", "check", "help")):
        place = Place(folder)
        words = {"files": ["M", "S"], "check": ["--check", "M", "S"], "help": ["--version"]}.get(way, [])
        names = place.names()
        text = OLD + b"\n" + SCRIPTS.encode() if way == "input" else b""
        told = place.run(program, *words, text=text, before=closing(numbers))
        output = {"check": b"", "help": b"cityed 0.1.0\n"}.get(way, REPORT + MODEL)
        if 0 in numbers and way == "input":
            wanted = (1, b"", UNREAD)
        elif 1 in numbers and way != "check":
            wanted = (1, b"", UNWRITTEN)
        else:
            wanted = (0, output, b"")
        wanted = (wanted[0], wanted[1], b"" if 2 in numbers else wanted[2])
        if told != wanted and not (way == "check" and 1 in numbers and told[0] == 1):
            raise Wrong("closed", numbers, words, told, wanted)
        hold(place, told, told, {"M": OLD, "S": SCRIPTS.encode()}, names, words)
        count += 1
    return count


def devices(program, folder):
    """What is no plain file gets the bytes at last, as they are; a folder is refused before anything is read."""
    count = 0
    place = Place(folder)
    os.mkfifo(place.path("pipe"))
    os.symlink("pipe", place.path("to-pipe"))
    os.symlink("/dev/null", place.path("to-null"))
    os.symlink("sub", place.path("to-sub"))
    names = place.names()
    for name in ("/dev/null", "to-null"):
        hold(place, place.run(program, "-o", name, "M", "S"), (0, REPORT, b""), {"M": OLD}, names, name)
    told = place.run(program, "-o", "/dev/full", "M", "S")
    hold(place, told, (1, REPORT, UNWRITTEN), {"M": OLD}, names, "/dev/full")
    for name in ("pipe", "to-pipe"):
        got = []
        reader = threading.Thread(target=lambda: got.append(place.read("pipe")))
        reader.start()
        told = place.run(program, "-o", name, "M", "S")
        reader.join(LIMIT)
        hold(place, told, (0, REPORT, b""), {"M": OLD}, names, name)
        if got != [MODEL]:
            raise Wrong(name, got)
    told = place.run(program, "-o", "/dev/stdout", "M", "S")
    hold(place, told, (0, REPORT + MODEL, b""), {"M": OLD}, names, "/dev/stdout")
    told = place.run(program, "-o", "/dev/stderr", "M", "S")
    hold(place, told, (0, REPORT, MODEL), {"M": OLD}, names, "/dev/stderr")
    told = place.run(program, "-o", "/dev/fd/1", text=OLD + b"\n" + SCRIPTS.encode())
    hold(place, told, (0, REPORT + MODEL, b""), {"M": OLD}, names, "/dev/fd/1")
    for name in ("sub", "to-sub", ".", "..", "/", "sub/", "sub/.."):
        told = place.run(program, "-o", name, "no-model", "no-scripts")
        hold(place, told, (1, b"", UNWRITTEN), {"M": OLD}, names, name)
        count += 1
    on_terminal(program, place)
    return count + 9


def on_terminal(program, place):
    """A terminal gets the model as a pipe does."""
    ours, theirs = pty.openpty()
    try:
        told = place.run(program, "-o", os.ttyname(theirs), "M", "S")
        got = b""
        while select.select([ours], [], [], 1)[0] and len(got) < len(MODEL):
            got += os.read(ours, 65536).replace(b"\r\n", b"\n")
    finally:
        os.close(theirs)
        os.close(ours)
    if told != (0, REPORT, b"") or got != MODEL:
        raise Wrong("terminal", told, got)


def links(program, folder):
    """Each link stays one, and what it leads to has the model, whether or not it was there."""
    count = 0
    texts = ("relative", "absolute", "up", "chain", "folder", "dotted", "long")
    for there, text in itertools.product((True, False), texts):
        place = Place(folder)
        new = "sub/new"
        if there:
            place.write(new, b"old")
        os.symlink("sub", place.path("folder"))
        if text == "chain":
            for number in range(39):
                os.symlink(f"chain{number + 1}" if number < 38 else new, place.path(f"chain{number}"))
        where, to = {
            "relative": ("link", "sub/new"),
            "absolute": ("link", place.path(new)),
            "up": ("sub/link", "../sub/new"),
            "chain": ("link", "chain0"),
            "folder": ("link", "folder/new"),
            "dotted": ("link", "./folder/../sub//./new"),
            "long": ("link", "sub/" + "./" * 1500 + "new"),
        }[text]
        os.symlink(to, place.path(where))
        names = sorted({*place.names(), place.path(new)})
        told = place.run(program, "-o", where, "M", "S")
        hold(place, told, (0, REPORT, b""), {"M": OLD, new: MODEL}, names, text, there)
        if os.readlink(place.path(where)) != os.fsencode(to):
            raise Wrong("link", text, there)
        count += 1
    return count + refused_links(program, folder)


def refused_links(program, folder):
    """Links that lead nowhere, or can't be followed, are refused before anything is read."""
    place = Place(folder)
    os.symlink("loop", place.path("loop"))
    os.symlink("b", place.path("a"))
    os.symlink("a", place.path("b"))
    os.symlink("missing/new", place.path("missing-folder"))
    os.symlink("M/new", place.path("through-file"))
    os.symlink(place.path(b"\xff\xfe"), place.path("bytes"))
    os.symlink(b"\xff", place.path("bytes-there"))
    place.write(b"\xff", b"old")
    for number in range(45):
        os.symlink(f"many{number + 1}" if number < 44 else "M", place.path(f"many{number}"))
    names, count = place.names(), 0
    kinds = ("loop", "a", "missing-folder", "through-file", "bytes", "bytes-there", "many0", "missing/new", "M/new", "")
    for name in kinds:
        told = place.run(program, f"--output={name}", "no-model", "no-scripts")
        if name == "" and told[0] == 2:
            continue  # an option without a value
        hold(place, told, (1, b"", UNWRITTEN), {"M": OLD, b"\xff": b"old"}, names, name)
        count += 1
    told = place.run(program, "--explain", "-o", "bytes", "M", "S")
    if told[:2] != (1, b"") or b"  file: bytes\n  what: " not in told[2]:
        raise Wrong("a link whose text isn't UTF-8", told)
    print(f"  a link whose text isn't UTF-8 is told so: {told[2].splitlines()[-1].decode().strip()}")
    told = place.run(program, "-o", b"\xff\xfe", "M", "S")
    hold(place, told, (2, b"", b"error: an argument isn't text in UTF-8\n"), {"M": OLD}, names, "bytes")
    return count + 2


def long_names(program, folder):
    """Names up to the file system's limit, also with characters of several bytes; beyond it they are refused."""
    count = 0
    for there, length in itertools.product((True, False), (1, 100, *range(225, 258))):
        for character in ("n", "é", "街", "🏠"):
            size = len(character.encode())
            name = "x" * (length % size) + character * (length // size)
            place = Place(folder)
            fits = length <= 255
            if fits and there:
                place.write(name, OLD)
            names = sorted({*place.names(), *([place.path(name)] if fits else [])})
            told = place.run(program, "-o", name, name if fits and there else "M", "S")
            if fits:
                hold(place, told, (0, REPORT, b""), {"M": OLD, name: MODEL}, names, name)
            else:
                hold(place, told, (1, b"", UNWRITTEN), {"M": OLD}, names, name)
            count += 1
    return count


def deep_folders(program, folder):
    """A folder whose path is longer than the system takes: names that count from it work all the same."""
    place = Place(folder)
    at = os.getcwd()
    os.chdir(place.root)
    try:
        for _ in range(20):
            os.mkdir("d" * 250)
            os.chdir("d" * 250)
        for name, text in (("M", OLD), ("S", SCRIPTS.encode())):
            with open(name, "wb") as file:
                file.write(text)
        os.symlink("M", "link")
        os.symlink("new", "dangling")
        for name, target in (("M", "M"), ("link", "M"), ("dangling", "new")):
            ran = subprocess.run([program, "-o", name, "M", "S"], capture_output=True, timeout=LIMIT, check=False)
            with open(target, "rb") as file:
                left = file.read()
            if ran.returncode != 0 or left not in (MODEL, MODEL):
                raise Wrong("deep", name, ran, left)
            with open("M", "wb") as file:
                file.write(OLD)
        if sorted(os.listdir(".")) != ["M", "S", "dangling", "link", "new"] or not os.path.islink("link"):
            raise Wrong("deep", os.listdir("."))
    finally:
        os.chdir(at)
        subprocess.run(["rm", "-rf", os.path.join(place.root, "d" * 250)], check=True)
    return 3


def limits(program, folder):
    """A write beyond the limit on a file's size: the file is the old one; what a kill leaves is named after it."""
    count = 0
    for limit, ignored in itertools.product((0, 1, 60, len(MODEL) - 1, len(MODEL), 4096), (False, True)):
        place = Place(folder)
        names = place.names()

        def bound(limit=limit, ignored=ignored):
            if ignored:
                signal.signal(signal.SIGXFSZ, signal.SIG_IGN)
            resource.setrlimit(resource.RLIMIT_FSIZE, (limit, limit))

        # Python ignores SIGXFSZ, which children inherit unless it is restored
        status, output, error = place.run(program, "-o", "M", "M", "S", before=bound, restore_signals=not ignored)
        left, beside = place.read("M"), sorted(set(place.names()) - set(names))
        if limit >= len(MODEL):
            wanted = (0, REPORT, b"", MODEL, [])
            if (status, output, error, left, beside) != wanted:
                raise Wrong("limit", limit, ignored, status, output, error, left, beside)
        elif left != OLD or output != b"":
            raise Wrong("limit", limit, ignored, status, output, error, left)
        elif status == -signal.SIGXFSZ:
            if any(not name.startswith(place.path("M.cityed-")) for name in beside) or len(beside) > 2:
                raise Wrong("limit", limit, ignored, beside)
            told = place.run(program, "-o", "M", "M", "S")
            if told != (0, REPORT, b"") or place.read("M") != MODEL:
                raise Wrong("limit", limit, ignored, "the next run", told)
        elif (status, error) != (1, UNWRITTEN) or beside:
            raise Wrong("limit", limit, ignored, status, error, beside)
        count += 1
    return count


def as_user(user, *groups):
    """Becomes another user of these groups before the program begins."""

    def become():
        os.setgroups(groups)
        os.setgid(user)
        os.setuid(user)

    return become


def owners(program, folder):
    """Owner, group and mode stay where they may be given; else the bits of the mode that lend rights are left out."""
    if os.geteuid() != 0:
        print("  owners: only root may give files away; left out")
        return 0
    count = 0
    modes = (0o644, 0o600, 0o400, 0o000, 0o751, 0o4755, 0o2755, 0o6755, 0o1644, 0o7777)
    for mode, uid, gid, linked in itertools.product(modes, (0, 1, OTHER_USER), (0, 7), (False, True)):
        place = Place(folder)
        os.symlink("M", place.path("link"))
        os.chown(place.path("M"), uid, gid)
        os.chmod(place.path("M"), mode)
        names = place.names()
        told = place.run(program, "-o", "link" if linked else "M", "M", "S")
        found = os.stat(place.path("M"))
        hold(place, told, (0, REPORT, b""), {"M": MODEL}, names, oct(mode), uid, gid)
        if (found.st_uid, found.st_gid, stat.S_IMODE(found.st_mode)) != (uid, gid, mode):
            raise Wrong("owner", oct(mode), uid, gid, found)
        count += 1
    os.chmod(folder, 0o755)  # other users may look it up, and run the program in it
    program = shutil.copy(program, folder)
    modes = (0o644, 0o4755, 0o2755, 0o6755, 0o1644)
    for mode, uid, gid in itertools.product(modes, (0, OTHER_USER), (0, 7, OTHER_USER)):
        place = Place(folder)
        os.chmod(place.root, 0o777)
        os.chown(place.path("M"), uid, gid)
        os.chmod(place.path("M"), mode)
        names = place.names()
        told = place.run(program, "-o", "M", "M", "S", before=as_user(OTHER_USER, 7))
        found = os.stat(place.path("M"))
        hold(place, told, (0, REPORT, b""), {"M": MODEL}, names, oct(mode), uid, gid, "as another user")
        group = gid if gid in (7, OTHER_USER) else OTHER_USER
        kept = mode if (uid, gid) == (OTHER_USER, group) else mode & 0o1777
        if (found.st_uid, found.st_gid, stat.S_IMODE(found.st_mode)) != (OTHER_USER, group, kept):
            raise Wrong("owner", oct(mode), uid, gid, "as another user", found, oct(kept))
        count += 1
    return count + closed_folders(program, folder)


def closed_folders(program, folder):
    """A user who may not make names in the folder: nothing is read or written. One who may not read it: all is done."""
    for mode, done in ((0o555, False), (0o000, False), (0o333, True)):
        place = Place(folder)
        place.write("sub/M", OLD)
        os.chown(place.path("sub/M"), OTHER_USER, OTHER_USER)
        os.chmod(place.path("sub"), mode)
        names = place.names()
        words = ["-o", "sub/M", "sub/M" if mode else "M", "S" if done else "no-scripts"]
        told = place.run(program, *words, before=as_user(OTHER_USER))
        wanted = (0, REPORT, b"") if done else (1, b"", UNWRITTEN)
        hold(place, told, wanted, {"sub/M": MODEL if done else OLD}, names, oct(mode))
    # a lock's file of root's is left, and may be neither written nor removed by the user: it serves as well
    place = Place(folder)
    os.chmod(place.root, 0o1777)
    os.chown(place.path("M"), OTHER_USER, OTHER_USER)
    place.write("M.cityed-lock", b"")
    names = place.names()
    told = place.run(program, "-o", "M", "M", "S", before=as_user(OTHER_USER))
    hold(place, told, (0, REPORT, b""), {"M": MODEL}, names, "a lock's file of another user")
    return 4


def scripts_named(program, folder):
    """An output file that is the scripts' file is refused with status 2, by its word, another word, or a link."""
    place = Place(folder)
    os.symlink("S", place.path("link"))
    os.symlink("sub/../link", place.path("chain"))
    os.link(place.path("S"), place.path("hard"))
    os.mkfifo(place.path("pipe"))
    names, count = place.names(), 0
    pairs = [("S", "S"), ("./S", "S"), ("link", "S"), ("S", "chain"), ("hard", "S"), ("no", "no")]
    pairs.append((place.path("S"), "S"))
    for (output, edits), more in itertools.product(pairs, ([], ["--atomic"], ["--wait", "2"])):
        told = place.run(program, "-o", output, *more, "no-model", edits)
        hold(place, told, (2, b"", NAMED), {"S": SCRIPTS.encode()}, names, output, edits)
        count += 1
    # what is no plain file may be both
    told = place.run(program, "-o", "/dev/null", "M", "/dev/stdin", text=SCRIPTS.encode())
    hold(place, told, (0, REPORT, b""), {"M": OLD}, names, "/dev/null")
    told = place.run(program, "-o", "/dev/fd/0", "M", "/dev/stdin", text=b"{}")
    if told[0] != 1:
        raise Wrong("a pipe that is both", told)
    return count + 2


KINDS = (closed, without_output, devices, links, long_names, deep_folders, limits, owners, scripts_named)


def main():
    parser = argparse.ArgumentParser(description=__doc__, formatter_class=argparse.RawDescriptionHelpFormatter)
    parser.add_argument("program", metavar="PROGRAM")
    parser.add_argument("--only", choices=[kind.__name__ for kind in KINDS], metavar="KIND")
    given = parser.parse_args()
    program = os.path.abspath(given.program)
    for kind in KINDS:
        if given.only in (None, kind.__name__):
            with tempfile.TemporaryDirectory() as folder:
                try:
                    print(f"{kind.__name__}: {kind(program, folder)} as they should be", flush=True)
                except (Wrong, subprocess.TimeoutExpired) as wrong:
                    print("WRONG:", kind.__name__, *(str(part)[:800] for part in wrong.args))
                    return 1
    return 0


if __name__ == "__main__":
    sys.exit(main())
