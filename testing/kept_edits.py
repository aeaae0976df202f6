"""Tries edits of a crate over what a check kept, by the toolchain's own must-fail.

    python3 testing/kept_edits.py CRATE EDIT ..    in a folder that has crates.txt, behind rt check of the crate
    python3 testing/kept_edits.py                  whether this toolchain can

edits.py starts it in its copy. rt must-fail by itself begins with a check of the crate from nothing, so this takes the
functions out of rt that it is made of. It knows the inside of the toolchain that the repository is proved with; in
another one it may not find what it knows, and then ends with status 3.

Edits of different functions are tried together, as many as one check can judge. A function is proved from its own body
and the contracts of what it calls, so it is refused together with others exactly if it is refused alone. A function
that calls one that is not proved isn't judged at all, and comes in a further check. An edit whose function isn't said
to be not proved, or by no goal of its own, is tried alone, and must-fail judges it.
"""

import importlib.machinery
import importlib.util
import inspect
import os
import re
import shutil
import sys
import tempfile
from collections import namedtuple
from pathlib import Path

from edits import Bad, steps

OTHER_TOOLCHAIN = 3
# What the functions of rt take: a crate, an edit's path or new texts of files, flags, a folder of kept work.
TAKES = {"must_fail": ["crate", "edit", "flags", "kept"], "checked": ["crate", "texts", "flags", "kept"]}
FLAGS = ["--jobs", "1"]
FUNCTION = re.compile(r"^ *(?:pub(?:\([^)]*\))? +)?(?:const +)?(?:unsafe +)?fn +(\w+)", re.M)
NOT_JUDGED = re.compile(r"^fn (\S+): no proof: it calls ", re.M)
NOT_PROVED = re.compile(r"^fn (\S+): (?:not proved|no proof: (?!it calls ))", re.M)
# A goal that is left open, or an answer that doesn't fit; and one that only misses a name.
TOLD = re.compile(r"(?:note: )?(?:\./)?((?:src|proofs)/\S+?):(\d+):\d+:")
MISSES_A_NAME = re.compile(r"(\./)?proofs/.*(has no field|is not in scope|has no `)|.*\bnot admitted\b")

# A file and the name of the function in it that an edit changes, and the edit's steps.
Change = namedtuple("Change", "edit path function steps")


def toolchain():
    """The toolchain's rt as a module, if it has what is needed here."""
    path = os.path.realpath(shutil.which("rt") or "rt")
    loader = importlib.machinery.SourceFileLoader("rt", path)
    module = importlib.util.module_from_spec(importlib.util.spec_from_loader("rt", loader))
    sys.dont_write_bytecode = True
    try:
        loader.exec_module(module)
        is_known = all(list(inspect.signature(getattr(module, it)).parameters) == TAKES[it] for it in TAKES)
        known = [module.say, module.unread, module.rtlib.STALE, module.rtlib.guarded, module.rtlib.crates_below]
        return module if is_known and all(known) else None
    except (AttributeError, ImportError, OSError, SyntaxError, TypeError, ValueError):
        return None


def enclosing(text, at):
    """The name of the function that stands last before a place, and whether the file has one of that name only."""
    names = [it[1] for it in FUNCTION.finditer(text)]
    above = [it[1] for it in FUNCTION.finditer(text, 0, at)]
    return above[-1] if above and names.count(above[-1]) == 1 else None


def change_of(crate, edit):
    """What an edit changes, if it is within one function that no other of its file shares the name with."""
    try:
        found = list(steps(Path(f"{crate.folder}/must-fail/{edit}").read_text(encoding="utf-8")))
    except (Bad, OSError, UnicodeDecodeError):
        return None
    places = set()
    for path, old, _ in found:
        text = Path(f"{crate.folder}/{path}").read_text(encoding="utf-8")
        places.add((path, enclosing(text, text.find(old)) if text.count(old) == 1 else None))
    path, function = places.pop() if len(places) == 1 else (None, None)
    return Change(edit, path, function, found) if function else None


def texts_of(crate, changes):
    """The texts of files after all these changes, and the changes that could be made together."""
    texts, made = {}, []
    for change in changes:
        text = texts.get(change.path) or Path(f"{crate.folder}/{change.path}").read_text(encoding="utf-8")
        if change.function in [it.function for it in made if it.path == change.path]:
            continue
        if all(text.count(old) == 1 for _, old, _ in change.steps):
            for _, old, new in change.steps:
                text = text.replace(old, new)
            texts[change.path] = text
            made.append(change)
    return texts, made


def is_of(change, module, path, line, texts):
    """Whether a line of the prover's is about the function of a change, by the place that it names."""
    if path == change.path:
        lines = texts[path].split("\n")
        return enclosing(texts[path], len("\n".join(lines[: int(line)]))) == change.function
    return is_path_of(change, module, [it.removeprefix("+") for it in path.split("/")[1:-1]])


def is_path_of(change, module, parts):
    """Whether these parts lead to the function of a change: its module, at most a type there, and its name."""
    ends = parts[-1:] == [change.function] and parts[: len(module)] == module
    return ends and len(parts) > len(module) and not any(it[:1].islower() for it in parts[len(module) : -1])


def refusal(change, said, texts):
    """The first goal of its own by which the function of a change is not proved, if it is so judged."""
    module = [it for it in change.path.removeprefix("src/").removesuffix(".rt").split("/") if it not in ("lib", "main")]
    if len([it for it in NOT_PROVED.findall(said) if is_path_of(change, module, it.split("::")[1:])]) != 1:
        return None
    for line in said.split("\n"):
        at = TOLD.match(line)
        is_told = at and (line.startswith("note: ") or ": error" in line) and not MISSES_A_NAME.match(line)
        if is_told and is_of(change, module, at[1], at[2], texts):
            return line
    return None


def isnt_judged(change, said):
    """Whether a function of a change's name calls what isn't proved, so that nothing is said of it."""
    return any(name.endswith(f"::{change.function}") for name in NOT_JUDGED.findall(said))


def together(rt, crate, kept, edits):
    """Tries edits together, and gives the goal by which each is refused; those left out are to be tried alone."""
    found, groups = {}, [[it for it in (change_of(crate, edit) for edit in edits) if it]]
    while groups:
        group = groups.pop()
        if len(group) < 2:
            continue
        texts, made = texts_of(crate, group)
        with tempfile.TemporaryDirectory(prefix="kept-") as room:
            ran = rt.checked(crate, texts, FLAGS, shutil.copytree(kept, f"{room}/incremental"))
        lines = ran.stdout.rstrip("\n").split("\n")
        is_read = ran.returncode == 1 and lines[-1].startswith("logic=not-proved")
        if not is_read or rt.rtlib.STALE.search(ran.stdout) or any(rt.unread(it, texts) for it in lines):
            groups += [group[: len(group) // 2], group[len(group) // 2 :]]
            continue
        refused = {it.edit: refusal(it, ran.stdout, texts) for it in made}
        new = {edit: line for edit, line in refused.items() if line}
        found.update(new)
        if new:
            groups.append([it for it in group if it not in made or isnt_judged(it, ran.stdout) and it.edit not in new])
    return found


def main(words):
    rt = toolchain()
    if rt is None:
        return OTHER_TOOLCHAIN
    if not words:
        return 0
    name, *edits = words
    rt.rtlib.guarded()
    crate = next(it for it in rt.rtlib.crates_below(os.getcwd()) if it.name == name)
    kept = f"{crate.folder}/out/incremental"
    refused = together(rt, crate, kept, edits)
    for edit, line in refused.items():
        rt.say(f"must-fail {name}/{edit}: refused, as it must be: {line}")
    for edit in [it for it in edits if it not in refused]:
        with tempfile.TemporaryDirectory(prefix="kept-") as room:
            alone = shutil.copytree(kept, f"{room}/incremental")
            rt.say(rt.must_fail(crate, f"{crate.folder}/must-fail/{edit}", FLAGS, alone)[1])
    return 0


if __name__ == "__main__":
    sys.exit(main(sys.argv[1:]))
