#!/usr/bin/env python3
"""Counts what has to be believed of a sentence: the lines of all definitions that its definition reaches.

    python3 testing/definitions.py [--files] [CRATE/FILE.NAME ..]

CRATE/FILE.NAME is a definition in crates/CRATE/specs/FILE.antt. Lines are those of definitions with their comments,
without imports and blank lines; types of Rust are counted by themselves. Without names, the definitions in the table of
docs/PROOF.md under "What to read" are counted: the status is 1 if the page has another count, by more than a twentieth,
or doesn't name a file that one of the first two reaches. --files lists the files.
"""

import argparse
import re
import sys
from functools import cache

from listed_crates import ROOT

CRATES = ROOT / "crates"
PAGE = ROOT / "docs/PROOF.md"
IMPORT = re.compile(r"^(?:pub )?use ([\w.]+)(?:\.\{([^}]*)\}| as (\w+))?\s*$", re.M)
HEAD = re.compile(r"((?:(?:pub|abbrev|unfoldable|record|data)\s+)+)([^\s:({]+)")
BIND = "◌>>=◌"  # what the word `do` stands for


class File:
    """A file of definitions: where its names come from, and the lines of each definition."""

    def __init__(self, path):
        self.path, self.imports, self.lines, self.within = path, {}, {}, {}
        text = path.read_text(encoding="utf-8")
        for module, names, other in IMPORT.findall(text):
            for name in filter(None, (it.strip() for it in names.split(","))):
                given, _, here = name.partition(" as ")
                self.imports[(here or given).strip()] = (module, given.strip())
            if other:
                self.imports[other] = (module, None)
        self.divide(re.sub(r"^(?:pub )?mod .*$", "", IMPORT.sub("", text), flags=re.M))

    def divide(self, text):
        """Finds the definitions, each with the comments right before it."""
        before, name, has_names = [], None, False
        for line in text.split("\n"):
            head = HEAD.match(line)
            if head:
                name, has_names = head[2], "data" in head[1] or head[2] == "mutual"
                self.lines.setdefault(name, [])
            if not line.strip():
                before = []
            elif line.startswith(("--", "infix")):
                before.append(line)
            elif name:
                self.lines[name] += [*before, line]
                before = []
                inner = re.match(r"\s+(?:pub )?([\w]+) :", line)
                if inner and has_names:
                    self.within.setdefault(inner[1], name)

    def words(self, name):
        """The names in a definition's text."""
        code = re.sub(r"--.*", "", "\n".join(self.lines[name]))
        found = set(re.findall(r"[A-Za-z_][\w'-]*", code)) | set(re.findall(r"[A-Za-z_]\w*\.[A-Za-z_][\w'-]*", code))
        signs = [it for it in [*self.imports, *self.lines] if it.startswith("◌")]
        found |= {it for it in signs if all(part in code for part in it.split("◌") if part)}
        return found | ({BIND} if re.search(r"\bdo\b", code) else set())


@cache
def file_of(path):
    return File(path)


def place_of(module):
    """The file of a module of this repository, or none."""
    head, crate, *rest = module.split(".") + [""] * 2
    path = CRATES / crate / ("/".join(it for it in rest if it) + ".antt")
    return path if head == "Rattle" and rest[0] == "specs" and path.is_file() else None


class Reached:
    """All that a definition reaches: definitions by file, and types of Rust."""

    def __init__(self, path, name):
        self.found, self.types = {}, set()
        left = [(path, name)]
        while left:
            left += self.visit(*left.pop())

    def visit(self, path, name):
        """The definitions that one names."""
        file = file_of(path)
        name = name if name in file.lines else file.within.get(name, name)
        if name not in file.lines:
            return self.outside(file, name)
        if name in self.found.setdefault(path, set()):
            return []
        self.found[path].add(name)
        inside = [(path, it) for it in file.words(name) if it in file.lines or it in file.within]
        return inside + [it for word in file.words(name) for it in self.outside(file, word)]

    def outside(self, file, word):
        """What an imported word names, as a list."""
        head, _, inner = word.partition(".")
        module, name = file.imports.get(head, ("", None))
        name = name or inner  # of a module that is imported under a word
        declared = re.fullmatch(r"Rattle\.(\w+)\.specs\.declared\.([\w.]+?)(?:\.TheVariants)?", module)
        if declared and (CRATES / declared[1]).is_dir():
            self.types.add((declared[1], *declared[2].rsplit(".", 1)))
        place = place_of(module) if module and name else None
        return [(place, name)] if place else []

    def lines_of(self, path):
        return sum(len(file_of(path).lines[name]) for name in self.found[path])

    @property
    def lines(self):
        return sum(map(self.lines_of, self.found))

    @property
    def type_lines(self):
        return sum(type_lines(*it) for it in self.types)


@cache
def type_lines(crate, module, name):
    """The lines of a type of Rust, with its comments."""
    path = CRATES / crate / "src" / (module.replace(".", "/") + ".rt")
    text = path.read_text(encoding="utf-8") if path.is_file() else ""
    found = re.search(rf"(?:^(?:///|#\[)[^\n]*\n)*^pub (?:enum|struct) {name}\b(?:[^;{{]*;|.*?^}})", text, re.M | re.S)
    return found[0].count("\n") + 1 if found else 0


def reached(named):
    """What a definition reaches, by its crate, file and name."""
    crate, _, rest = named.partition("/")
    file, _, name = rest.rpartition(".")
    path = CRATES / crate / "specs" / f"{file}.antt"
    if not path.is_file() or name not in file_of(path).lines:
        sys.exit(f"definitions: there is no {named}")
    return Reached(path, name)


def tell(named, it, with_files):
    print(f"{named}: {it.lines:,} lines of {len(it.found)} files, {it.type_lines} of {len(it.types)} types")
    for path in sorted(it.found) if with_files else ():
        print(f"  {path.relative_to(CRATES)}: {it.lines_of(path)} lines, {len(it.found[path])} definitions")


def page():
    """What the page says: the part on what to read, and the count of each definition in its table."""
    part = re.search(r"^### What to read\n(.*?)^##", PAGE.read_text(encoding="utf-8"), re.M | re.S)[1]
    rows = re.findall(r"\| `([\w/]+\.\w+)` \| ([\d,]+)$", part, re.M)
    return part, {name: int(count.replace(",", "")) for name, count in rows}


def wrong(part, name, count, it, is_listed):
    """What the page has otherwise."""
    if abs(count - it.lines) * 20 > it.lines:
        yield f"{PAGE.name} has {count:,} lines for {name}"
    for path in sorted(it.found) if is_listed else ():
        crate, _, *place = path.relative_to(CRATES).with_suffix("").parts
        names = ["/".join(place), *place]
        if f"`{crate}/" not in part or not any(f"`{it}`" in part or f"/{it}`" in part for it in names):
            if f"`{crate}/{'/'.join(place)}." not in part:
                yield f"{PAGE.name} doesn't name {crate}/specs/{'/'.join(place)}"


def main():
    words = argparse.ArgumentParser(description=__doc__, formatter_class=argparse.RawDescriptionHelpFormatter)
    words.add_argument("--files", action="store_true")
    words.add_argument("names", nargs="*", metavar="CRATE/FILE.NAME")
    asked = words.parse_args()
    part, counts = page()
    faults = []
    for at, name in enumerate(asked.names or counts):
        it = reached(name)
        tell(name, it, asked.files)
        faults += list(wrong(part, name, counts[name], it, at < 2)) if not asked.names else []
    print(*faults, sep="\n", end="\n" if faults else "")
    return 1 if faults or not (asked.names or counts) else 0


if __name__ == "__main__":
    sys.exit(main())
