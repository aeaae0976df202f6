#!/usr/bin/env python3
"""Tries wrong bodies: the edits of testing/edits, each of which the prover has to refuse because a contract fails.

    python3 testing/edits.py [CRATE ..] [--changed BASE] [--jobs N]
    python3 testing/edits.py --apply [CRATE ..] [--changed BASE]

Without names the crates are all that have edits there. With --changed only those are taken whose edits differ from the
commit BASE, or whose src, specs or proofs do, and those above the latter, whose contracts rest on them. What isn't
committed counts too. N crates are tried side by side: two if it isn't said, each by a check of up to 5 GB.

Each crate is copied, with those below it, into a folder of its own, which is removed at the end, and so is what `rt
check` kept of them in `out/`; no check may run there meanwhile. In the copy `rt check` proves the crate as it stands,
in under a minute where all was kept, and from nothing where it wasn't. Over that the toolchain's own must-fail tries
the edits, those of different functions together (kept_edits.py). Those in the crates' own must-fail folders are left
out: the gate tries them. For each edit a line says what refused it: a clause of a contract, or another goal that was
left open. An edit fails if it isn't refused or wasn't tried, if it can't be applied or read (BAD EDIT), if a proof file
names what it took away (MISSING NAME), or if the prover met a limit (LIMIT).

With --apply nothing is proved: it looks whether each edit can be applied, those in must-fail too. It needs no
toolchain, and takes a second. The last line counts, and the status is 1 where an edit failed.
"""

import argparse
import contextlib
import os
import re
import shutil
import signal
import subprocess
import sys
import tempfile
from collections import namedtuple
from concurrent.futures import ThreadPoolExecutor, as_completed
from pathlib import Path

from listed_crates import ROOT, listed, own, reached

EDITS = ROOT / "testing" / "edits"
PROVED_FROM = ("src", "specs", "proofs")
NAME = re.compile(r"[A-Za-z0-9_-][A-Za-z0-9_.-]*\.edit")
OVER_KEPT = [sys.executable, str(ROOT / "testing" / "kept_edits.py")]

# The words by which rt begins what it says of an edit, and the cases in which a refusal shows nothing of a contract.
OF_AN_EDIT = re.compile(r"rt: must-fail (\w+)/(\S+\.edit): (.*)")
REFUSED = "refused, as it must be"
FAULTS = ("BAD EDIT", "NOT TRIED", "NOT REFUSED")
NO_REFUSALS = {"only because a proof file names": "MISSING NAME", "only by a limit": "LIMIT"}
# A goal that the search left open, or at which a written answer no longer fits.
LEFT_OPEN = re.compile(r"note: (?:\./)?(\S+?:\d+):\d+: it is not proved that (.*)")
MET_A_LIMIT = re.compile(r"\b(?:step|resource) limit\b|\ba limit was met\b")
OF_A_CONTRACT = ("what the function ensures", "the `invariant` of")
NO_ANSWER = re.compile(r"(?:\./)?(\S+?:\d+):\d+: error: `([^`]+)`")
GOAL = re.compile(r"\(`([^`]+)`\)")

Edit = namedtuple("Edit", "crate path")
# The commands that run.
RUNNING = set()


class Bad(Exception):
    """An edit that can't be applied."""


class Stop(Exception):
    """Why nothing can be tried."""


def edits_in(folder, crate):
    """The edits in a folder; whatever else lies there is one that has a wrong name."""
    return [Edit(crate, path) for path in sorted(folder.iterdir())] if folder.is_dir() else []


def label(edit):
    """The crate and the name of an edit."""
    return f"{edit.crate}/{edit.path.name.removesuffix('.edit')}"


def git(*words):
    """The names that git lists, of files from the root of the repository."""
    if shutil.which("git") is None:
        raise Stop("there is no command git, which lists the files")
    ran = subprocess.run(["git", words[0], "-z", *words[1:]], cwd=ROOT, capture_output=True, text=True)
    if ran.returncode:
        raise Stop(f"git {words[0]} failed: {ran.stderr.strip()}")
    return [name for name in ran.stdout.split("\0") if name]


def changed_since(base, uses):
    """The crates whose edits differ from a commit, and those whose proofs rest on a file that does."""
    others = git("ls-files", "--others", "--exclude-standard")
    differ, edited = set(), set()
    for name in git("diff", "--name-only", "--no-renames", base, "--") + others:
        parts = name.split("/")
        if parts[0] == "crates" and len(parts) > 3 and parts[2] in PROVED_FROM:
            differ.add(parts[1])
        if parts[:2] == ["testing", "edits"] and len(parts) > 3:
            edited.add(parts[2])
    return edited | {name for name in uses if differ.intersection(reached(uses, [name]))}


def chosen(asked, uses):
    """The crates that are asked for."""
    unknown = [name for name in asked.crates if name not in uses]
    if unknown:
        raise Stop(f"crates.txt has no crate {unknown[0]}")
    names = set(asked.crates or uses)
    if asked.changed is not None:
        names &= changed_since(asked.changed, uses)
    return [name for name in uses if name in names]


def steps(text):
    """What an edit does: a file, what stands in it once, and what takes its place."""
    path = old = None
    for line in text.split("\n"):
        if line.startswith("file: "):
            path = line[len("file: ") :].strip()
        elif line.startswith("old: ") and old is None:
            old = line[len("old: ") :]
        elif line.startswith("new:") and path and old:
            yield path, old, line[len("new:") :].removeprefix(" ")
            old = None
        elif line.strip() and not line.startswith(("#", "--", "//")):
            raise Bad(f"nobody reads its line: {line.strip()[:80]}")
    if old is not None:
        raise Bad("its last 'old:' has no 'new:'")


def apply(edit):
    """Applies an edit, in memory alone."""
    if not NAME.fullmatch(edit.path.name):
        raise Bad("its name isn't one of letters, digits, _, - and . that ends in .edit")
    was, texts = {}, {}
    for path, old, new in steps(edit.path.read_text(encoding="utf-8")):
        file = ROOT / "crates" / edit.crate / path
        if not path.startswith("src/") or os.path.normpath(path) != path or not file.is_file():
            raise Bad(f"there is no file {path} in src/")
        if path not in texts:
            was[path] = texts[path] = file.read_text(encoding="utf-8")
        count = texts[path].count(old)
        if count != 1:
            raise Bad(f"what it replaces stands {count} times in {path}, and not once: {old.strip()}")
        texts[path] = texts[path].replace(old, new)
    if texts == was:
        raise Bad("it changes nothing")


def fault_of(edit):
    """Why an edit can't be applied, if it can't."""
    try:
        apply(edit)
    except (Bad, OSError, UnicodeDecodeError) as why:
        return f"BAD EDIT: {why}"
    return None


def all_edits(names):
    """The edits of crates that are tried on demand, and those that the gate keeps."""
    found = [it for name in names for it in edits_in(EDITS / name, name)]
    return found, [it for name in names for it in edits_in(ROOT / "crates" / name / "must-fail", name)]


def applied(edits, kept):
    """Tells the edits that can't be applied, and counts all."""
    faults = {edit: fault_of(edit) for edit in edits + kept}
    twice = {label(edit) for edit in edits} & {label(edit) for edit in kept}
    faults.update({edit: "BAD EDIT: the gate keeps one of this name" for edit in edits if label(edit) in twice})
    for edit, fault in faults.items():
        if fault:
            print(f"{edit.path.relative_to(ROOT)}: {fault}")
    return [fault is None for fault in faults.values()]


def copy(room, names, edits):
    """Copies crates, as they stand, with what checks kept of them, and the edits of the last one."""
    listed = git("ls-files", "--cached", "--others", "--exclude-standard", "crates", "crates.txt", "HANDLES")
    for name in filter(lambda it: (ROOT / it).is_file(), listed):
        parts = name.split("/")
        if len(parts) > 2 and (parts[1] not in names or parts[2] == "must-fail"):
            continue
        (room / name).parent.mkdir(parents=True, exist_ok=True)
        shutil.copyfile(ROOT / name, room / name)
    lines = (room / "crates.txt").read_text(encoding="utf-8").splitlines(keepends=True)
    lines = [line for line in lines if (line.partition(":")[0].split() or [""])[0] in names]
    (room / "crates.txt").write_text("".join(lines), encoding="utf-8")
    for edit in edits:
        folder = room / "crates" / edit.crate / "must-fail"
        folder.mkdir(exist_ok=True)
        shutil.copyfile(edit.path, folder / edit.path.name)
    for name in names:
        kept, to = ROOT / "crates" / name / "out", room / "crates" / name / "out"
        is_built = (kept / "rlib" / "stamp").is_file()
        if is_built:
            shutil.copytree(kept / "rlib", to / "rlib", copy_function=linked)
        if (kept / "incremental").is_dir() and (name == names[-1] or not is_built):
            shutil.copytree(kept / "incremental", to / "incremental")


def linked(file, to):
    """Links a file of a built library, which rt only reads and removes; where that can't be, it is copied."""
    try:
        os.link(file, to)
    except OSError:
        shutil.copyfile(file, to)


def run(room, folder, words):
    """Runs a command for a copy to its end, and gives its status and the lines that it said."""
    given = {"cwd": folder, "env": {**os.environ, "TMPDIR": str(room), "RT_JOBS": "1"}, "stdin": subprocess.DEVNULL}
    with tempfile.TemporaryFile(dir=room) as file:
        ran = subprocess.Popen(words, stdout=file, stderr=subprocess.STDOUT, start_new_session=True, **given)
        RUNNING.add(ran)
        status = ran.wait()
        RUNNING.discard(ran)
        file.seek(0)
        return status, file.read().decode(errors="replace").splitlines()


def end_all():
    """Ends the commands that run, and all that they began."""
    for ran in list(RUNNING):
        with contextlib.suppress(ProcessLookupError):
            os.killpg(ran.pid, signal.SIGKILL)


def lines_of(uses, edits, over_kept):
    """Has the edits of a crate tried, and gives the lines that tell of them, or why none was."""
    name = edits[0].crate
    with tempfile.TemporaryDirectory(prefix="edits-", ignore_cleanup_errors=True) as folder:
        room = Path(folder)
        copy(room, reached(uses, [name]), edits)
        status, lines = run(room, room / "crates" / name, ["rt", "check", "--jobs", "1"])
        if status or not any(it.startswith("logic=proved ") for it in lines):
            return [], f"{name} isn't proved as it stands. The last lines of rt check:\n  " + "\n  ".join(lines[-5:])
        names = [it.path.name for it in edits]
        lines = run(room, room, [*OVER_KEPT, name, *names] if over_kept else ["rt", "must-fail", name])[1]
        return lines, "\n  ".join(["rt says nothing of it. Its last lines:", *lines[-5:]])


def verdict(said):
    """Whether rt says that a contract refuses the edit, and what to tell of it."""
    if not said.startswith(REFUSED):
        known = said.startswith(FAULTS)
        return False, said if known else f"NOT TRIED, or rt says it in other words: {said}"
    why = said.removeprefix(REFUSED)
    for words, kind in NO_REFUSALS.items():
        if why.startswith(f" ({words}"):
            return False, f"{kind}: {why.partition('): ')[2] or why.strip()}"
    if MET_A_LIMIT.search(why):
        return False, f"LIMIT: {why.removeprefix(': ')}"
    if why and not why.startswith(": "):
        return False, f"rt refuses it in other words: {said}"
    return True, f"refused by {what_refused(why.removeprefix(': '))}"


def what_refused(line):
    """The clause or the goal that a line of the prover's is about."""
    left_open, no_answer = LEFT_OPEN.match(line), NO_ANSWER.match(line)
    if left_open:
        goal = (GOAL.search(left_open[2]) or [None, ""])[1]
        is_clause = is_of_contract(goal) or left_open[2].startswith(OF_A_CONTRACT)
        return f"{'a clause' if is_clause else 'an open goal'}: {goal or left_open[2]}, {left_open[1]}"
    if no_answer:
        return f"{'a clause' if is_of_contract(no_answer[2]) else 'an open goal'}: {no_answer[2]}, {no_answer[1]}"
    return f"an open goal: {line or 'rt names none'}"


def is_of_contract(goal):
    """Whether a goal is a clause: what a function ensures, a call requires, or a type keeps."""
    return goal.startswith(("returns", "invariant_of")) or "-requires" in goal


def said_of_edits(lines):
    """What rt says of each edit, by its name: the rest of a line, and the lines behind it that begin with no rt:."""
    said, name = {}, None
    for line in lines:
        found = OF_AN_EDIT.match(line)
        if found:
            name = f"{found[1]}/{found[2]}"
            said[name] = found[3]
        elif line.startswith("rt: "):
            name = None
        elif name:
            said[name] += f"\n  {line}"
    return said


def tried(edits, uses, jobs):
    """Tries edits, tells what came of each, and returns whether each was refused."""
    if shutil.which("rt") is None:
        raise Stop("there is no command rt: the edits are tried by the Rattle toolchain, whose bin/ has to be in PATH")
    over_kept = subprocess.run(OVER_KEPT, stdin=subprocess.DEVNULL).returncode == 0
    if not over_kept:
        print("this toolchain's must-fail is another one, and begins each crate with a check from nothing", flush=True)
    parts = {name: [it for it in edits if it.crate == name] for name in uses}
    with ThreadPoolExecutor(jobs) as pool:
        begun = {pool.submit(lines_of, uses, part, over_kept): part for part in parts.values() if part}
        try:
            return [well for it in as_completed(begun) for well in told(begun[it], *it.result())]
        finally:
            for it in begun:
                it.cancel()
            end_all()


def told(edits, lines, otherwise):
    """Tells what was said of edits, and returns whether each was refused."""
    said, well = said_of_edits(lines), []
    for edit in edits:
        is_refused, tells = verdict(said.get(f"{edit.crate}/{edit.path.name}", f"NOT TRIED: {otherwise}"))
        print(f"{label(edit)}: {tells}", flush=True)
        well.append(is_refused)
    return well


def main():
    asked = argparse.ArgumentParser(description=__doc__, formatter_class=argparse.RawDescriptionHelpFormatter)
    asked.add_argument("crates", nargs="*", metavar="CRATE")
    asked.add_argument("--changed", metavar="BASE")
    asked.add_argument("--jobs", type=int, default=2, metavar="N")
    asked.add_argument("--apply", action="store_true")
    asked = asked.parse_args()
    signal.signal(signal.SIGTERM, lambda *_: sys.exit("edits: ended"))
    uses = own(listed())
    try:
        edits, kept = all_edits(chosen(asked, uses))
        strange = [it.name for it in sorted(EDITS.iterdir()) if it.name not in uses]
        if strange:
            raise Stop(f"testing/edits/{strange[0]} is no crate of crates.txt")
        if asked.apply:
            well = applied(edits, kept)
        else:
            broken = [edit for edit in edits if fault_of(edit)]
            well = applied(broken, [])
            whole = [edit for edit in edits if edit not in broken]
            well += tried(whole, uses, max(1, asked.jobs)) if whole else []
    except Stop as why:
        print(f"edits: {why}")
        return 2
    print(f"{sum(well)} passed, {len(well) - sum(well)} failed")
    return 0 if all(well) else 1


if __name__ == "__main__":
    sys.exit(main())
