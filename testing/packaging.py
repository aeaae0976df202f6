#!/usr/bin/env python3
"""Tries what packaging/ makes: the man page, the completions and the Debian packages.

    python3 testing/packaging.py [--only KIND] PROGRAM

PROGRAM is a built cityed. The help text is compared with the description of the command line, in city_options; the man
page with the help text, word by word, as man shows it; the completions of bash, zsh and fish with lists by hand, at a
terminal. The packages are made, refused, installed in an empty tree, run there, and removed. Prints a line for each
kind with the number of cases, and what is skipped since a program is missing; ends at the first wrong one with status
1.
"""

import argparse
import gzip
import os
import re
import shutil
import subprocess
import sys
import tempfile
from itertools import zip_longest
from pathlib import Path

from listed_crates import ROOT
from shells import NoAnswer, shells

HELP = ROOT / "testing/help.txt"
OPTIONS = ROOT / "crates/city_options/src"
MAINTAINER = "A Trial <trial@trial.invalid>"
SECONDS = 120
PLACES = {
    "bash": "usr/share/bash-completion/completions/cityed",
    "zsh": "usr/share/zsh/vendor-completions",
    "fish": "usr/share/fish/vendor_completions.d/cityed.fish",
}
# The help texts of another program, with forms of lines that cityed's have not, and its options.
OTHER = ROOT / "testing/other_help.txt"
EVERY = ["--colour", "--depth", "--far", "--help", "--into", "--journal", "--live", "--seed"]
# Lines of a shell, and the words that are offered for the last one; FILES stands for the names of the folder.
FILES = ["folder", "scripts.json", "town hall.city.json"]
OTHER_OFFERED = {
    "towner --": EVERY,
    "towner --live --": ["--depth", "--far", "--help", "--journal"],
    "towner --journal scripts.json --live --": ["--depth", "--far"],
    "towner --into folder --": ["--far"],
    "towner -d 2 --far --": ["--colour", "--journal", "--live", "--seed"],
    "towner --help --": ["--live"],
    "towner --depth ": ["1", "2", "3"],
    "towner -d ": ["1", "2", "3"],
    "towner --colour ": ["always", "never"],
    "towner --into ": ["folder"],
    "towner --journal ": FILES,
    "towner --seed ": [],
    "towner --far ": FILES,
    "towner --f": ["--far"],
}
COMPLETED = {
    "cityed --dec": ["--decimals"],
    "cityed --workers 4 --expl": ["--workers", "4", "--explain"],
    "cityed -o scr": ["-o", "scripts.json"],
    "cityed --output=scr": ["--output=scripts.json"],
    "cityed to": ["town hall.city.json"],
    "cityed --check 'town hall.city.json' scr": ["--check", "town hall.city.json", "scripts.json"],
    "cityed -- scr": ["--", "scripts.json"],
}


class Wrong(Exception):
    """Something isn't as it should be."""


class Skipped(Exception):
    """A kind can't be tried on this machine."""


def hold(told, what):
    if not told:
        raise Wrong(what)


def same(given, wanted, what):
    if given == wanted:
        return
    if isinstance(given, str):
        pairs = zip_longest(given.split("\n"), wanted.split("\n"))
        given, wanted = next(pair for pair in pairs if pair[0] != pair[1])
    raise Wrong(f"{what}:\ncame   {given}\nwanted {wanted}")


def called(*words, **given):
    """What a command answers: status, output and standard error."""
    env = {**os.environ, "LC_ALL": "C.UTF-8", "MANWIDTH": "80", **given.pop("env", {})}
    given = {"stdin": subprocess.DEVNULL, "capture_output": True, "timeout": SECONDS, "env": env, **given}
    return subprocess.run([str(it) for it in words], **given)


def ended(*words, **given):
    """The output of a command that has to end well, and to say nothing else."""
    ran = called(*words, **given)
    said = ran.stderr.decode(errors="replace")
    hold(ran.returncode == 0 and not said, f"{' '.join(map(str, words))}: status {ran.returncode}: {said[:2000]}")
    return ran.stdout.decode(errors="replace")


def needed(*programs):
    missing = [it for it in programs if not shutil.which(it)]
    if missing:
        raise Skipped(f"there is no {' and no '.join(missing)}")


def script(name, *words, **given):
    return called(sys.executable, ROOT / "packaging" / name, *words, **given)


def generated(help, out):
    """The files that are made of a help text."""
    ended(sys.executable, ROOT / "packaging/generate.py", help, out)
    return out


def texts_of(help):
    """The help texts of a program: the one, and those beside it for further command lines."""
    return [it.read_text(encoding="utf-8") for it in sorted(help.parent.glob(f"{help.stem}*.txt"))]


def options_of(text):
    """The long options of help texts, read by a pattern of one line."""
    return re.findall(r"^ +(?:-\w, )?(--[\w-]+)(?: <\w+>)?(?:  |$)", text, re.M)


class Trial:
    """The kinds that are tried, in a room of their own."""

    def __init__(self, program, room):
        self.program, self.room = program, room
        self.folder, self.home = room / "folder", room / "home"
        for it in (self.folder / "folder", self.home):
            it.mkdir(parents=True)
        for name in FILES[1:]:
            (self.folder / name).touch()

    # The description

    def description(self):
        """The help text has the options and arguments that city_options names, and the program prints it."""
        source = "\n".join(it.read_text(encoding="utf-8") for it in sorted(OPTIONS.glob("*.rt")))
        named = re.findall(r'const \w+: &str = "([\w-]+)";', source)
        text, *further = texts_of(HELP)
        wanted = {f"--{it}" for it in named if it.islower()} | {"--help", "--version"}
        same(set(options_of("\n".join([text, *further]))), wanted, "the options of help.txt and those that city_options names")
        same(set(re.findall(r"^  \[(\w+)\]  ", text, re.M)), {it for it in named if it.isupper()}, "the arguments")
        source = source.replace('\\"', '"')
        for it in (text, *further):
            for part in (it.split("\n")[0], usage(it), it.split("\n\n", 4)[4].strip()):
                hold(part in source, f"city_options hasn't: {part}")
        same(ended(self.program, "--help"), text, "what the program prints")
        for words, it in zip(re.findall(r"`cityed((?: --[\w-]+)+) --help`", text), further, strict=True):
            same(ended(self.program, *words.split(), "--help"), it, f"what the program prints with{words}")
        number = re.search(r'(?:\.version\(|const VERSION: &str = )"([^"]+)"', source)[1]
        same(ended(self.program, "--version"), f"cityed {number}\n", "the version")
        return len(wanted) + 5 + 4 * len(further)

    # The man page

    def man(self):
        """The man page has each word of the help text, in its order where it is one part of it."""
        needed("man")
        shown = [(HELP, "cityed.1"), (OTHER, "towner.1")]
        return sum(self.shows(help, generated(help, self.room / name) / name) for help, name in shown)

    def shows(self, help, page):
        text, shown = "\n".join(texts_of(help)), " ".join(self.rendered(page).split())
        parts = [" ".join(it.split()) for it in re.split(r"\n| {2,}", text)]
        parts = [it for it in parts if it and not re.fullmatch(r"(Arguments|Options|Other|Status):", it)]
        for part in parts:
            part = re.sub(r"[<>]", "", part.removeprefix("Usage: "))
            part = part if part in shown else re.sub(r"^\[(\w+)\]$", r"\1", part)
            hold(part in shown, f"the man page hasn't: {part}")
        return len(parts)

    def rendered(self, page):
        """What man shows of a page, which it has to do without a warning."""
        return re.sub(r".\x08", "", ended("man", "--warnings=w", "-P", "cat", "-l", page))

    # The completions

    def completions(self):
        """What the shells offer and complete, by the completions of two help texts."""
        made = generated(HELP, self.room / "made")
        other = generated(OTHER, self.room / "made")
        places = lambda name: {"bash": made / f"{name}.bash", "zsh": other, "fish": made / f"{name}.fish"}
        count = self.offers(places("cityed"), offered("\n".join(texts_of(HELP))), COMPLETED)
        return count + self.offers(places("towner"), OTHER_OFFERED, {})

    def offers(self, places, offered, completed):
        there, missing = shells()
        for name in missing:
            print(f"completions: {name} isn't tried, since there is none")
        for kind in there:
            shell = kind(places, self.folder, self.home)
            for line, words in offered.items():
                came = sorted({it.rstrip("/") for it in shell.offered(line)})
                same(came, sorted(words), f"{kind.name} offers for {line!r}")
            for line, words in completed.items():
                same(shell.completed(line), words, f"{kind.name} completes {line!r}")
            shell.close()
        return len(there) * (len(offered) + len(completed))

    # Help texts of no known form

    def refused_texts(self):
        """What is no help text is refused, and nothing is made."""
        path, out = self.room / "refused.txt", self.room / "refused"
        text = HELP.read_text(encoding="utf-8")
        texts = ["", "Usage: a\n", text.replace("Usage:", "Use:"), text.replace("  --atomic  ", "  atomic  ", 1)]
        texts += [text.replace("[--atomic]", "[--atom]"), text.replace("--workers <N>", "--workers <N> <N>")]
        for it in texts:
            path.write_text(it, encoding="utf-8")
            ran = script("generate.py", path, out)
            refused = ran.returncode == 1 and b"nothing is made" in ran.stdout
            hold(refused and not out.exists(), f"not refused: {it[:300]}")
        return len(texts)

    # The packages

    def packed(self, program, out, *words, **given):
        given["env"] = {"DEBFULLNAME": "", "DEBEMAIL": "", **given.get("env", {})}
        named = ["--maintainer", MAINTAINER] if given.pop("named", True) else []
        return script("debian.py", *named, *words, program, out, **given)

    def debs(self, out, *words, **given):
        """The packages of the program, made in a folder, by their names."""
        flags = ["--unproved"] if self.program.name.endswith("-unproved") else []
        ran = self.packed(self.program, out, *flags, *words, **given)
        hold(ran.returncode == 0, f"no package: {ran.stderr.decode()}")
        told = b"not proved: for trials alone" in ran.stdout
        same(told, bool(flags), f"it is told that nothing is proved: {ran.stdout}")
        return {it.name.split("_")[0]: it for it in sorted(out.glob("*.deb"))}

    def refused(self):
        """Programs that aren't packed, and why."""
        needed("dpkg-deb", "rt")
        bin, out = self.room / "bin", self.room / "none"
        bin.mkdir()
        unproved, linked, plain = bin / "it-unproved", bin / "linked", bin / "cityed"
        shutil.copy2(self.program, unproved)
        shutil.copy2(self.program, plain)
        linked.symlink_to(unproved)
        answers = {"--version": 'echo "cityed 9.9.9"', "--help": f'exec "{unproved}" --version'}
        for word, answer in answers.items():
            path = bin / word.strip("-")
            path.write_text(f'#!/bin/sh\nif [ "$1" = {word} ]; then {answer}; else exec "{unproved}" "$1"; fi\n')
            path.chmod(0o755)
        cases = [(unproved, "isn't proved"), (linked, "isn't proved"), (bin / "missing", "there is no program")]
        cases += [(bin / "version", "--version isn't"), (bin / "help", "--help isn't"), (bin, "there is no program")]
        cases += [(HELP, "there is no program"), (Path(shutil.which("true")), "--version")]
        for program, why in cases:
            ran = self.packed(program, out)
            self.is_refused(ran, why, out)
        self.is_refused(self.packed(plain, out, named=False), "nobody makes", out)
        self.is_refused(self.packed(plain, out, env={"PATH": str(bin)}), "", out)
        return len(cases) + 2

    def is_refused(self, ran, why, out):
        said = ran.stderr.decode()
        hold(ran.returncode == 1 and "no package is made" in said and why in said, f"{why}: {ran}")
        hold(not out.exists() or not list(out.iterdir()), f"{why}: something was written")

    def packages(self):
        """The packages are the same whenever they are made, and say what they have."""
        needed("dpkg-deb", "rt")
        made = self.debs(self.room / "first")
        later = self.debs(self.room / "second", env={"TZ": "Asia/Tokyo"})
        for name, path in made.items():
            same(later[name].read_bytes() == path.read_bytes(), True, f"{name} made twice")
        number = ended("dpkg-deb", "--field", made["cityed"], "Version").strip()
        version = ended(self.program, "--version").split()[1]
        unproved = self.program.name.endswith("-unproved")
        same(number, f"{version}~unproved-1" if unproved else f"{version}-1", "the version")
        about = ended("dpkg-deb", "--field", made["cityed"], "Description")
        same("without its proof" in about, unproved, "the description says that nothing is proved")
        return len(made) + 3

    def installed(self):
        """The package in an empty tree: the program, its pages, its man page and completions; and all of it gone."""
        needed("dpkg", "dpkg-deb", "man", "rt")
        tree = self.tree("tree")
        self.dpkg(tree, "--install", self.debs(self.room / "third")["cityed"])
        same(ended("dpkg", f"--root={tree}", "--verify", "cityed"), "", "what differs from the package")
        same((tree / "usr/bin/cityed").read_bytes() == self.program.read_bytes(), True, "the program, byte by byte")
        count = 2 + self.runs(tree) + self.links(tree)
        count += self.offers({it: tree / place for it, place in PLACES.items()}, {}, COMPLETED)
        page = ended("man", "--warnings=w", "-P", "cat", "-M", tree / "usr/share/man", "cityed")
        hold("CITYED(1)" in page, "man has no page of cityed")
        self.dpkg(tree, "--purge", "cityed")
        left = [str(it.relative_to(tree)) for it in tree.rglob("*") if "var/lib/dpkg" not in str(it)]
        same([it for it in left if it not in ("var", "var/lib")], [], "what is left")
        return count + 2

    def tree(self, name):
        """An empty tree for dpkg."""
        tree = self.room / name
        for it in ("info", "updates", "triggers"):
            (tree / "var/lib/dpkg" / it).mkdir(parents=True)
        (tree / "var/lib/dpkg/status").touch()
        return tree

    def dpkg(self, tree, *words):
        forced = ["--force-not-root", "--force-script-chrootless", "--force-depends"]
        ran = called("dpkg", f"--root={tree}", *forced, f"--log={tree}.log", *words)
        hold(ran.returncode == 0, f"dpkg: {ran.stderr.decode()}")

    def runs(self, tree):
        """The installed program does to the installed examples what PROGRAM does to those of the repository."""
        words = ["--decimals", "examples/tile.city.json", "examples/tile.scripts.json"]
        doc = tree / "usr/share/doc/cityed"
        installed = ended(tree / "usr/bin/cityed", *words, cwd=doc)
        same(installed, ended(self.program, *words, cwd=ROOT), "an installed example")
        for path in [*doc.rglob("*.md"), *doc.rglob("*.py")]:
            text = path.read_text(encoding="utf-8")
            parts = re.findall(r"^```.*?^```$", text, re.M | re.S) if path.suffix == ".md" else [text]
            hold(not any("crates/cityed/out" in it for it in parts), f"{path} calls a program of the repository")
        for name in ("copyright", "changelog.gz", "changelog.Debian.gz"):
            data = (doc / name).read_bytes()
            hold(len(gzip.decompress(data) if name.endswith(".gz") else data) > 100, f"{name} is empty")
        return 5

    def links(self, tree):
        """Each link of an installed page leads to one that is there."""
        count = 0
        for page in (tree / "usr/share/doc/cityed").rglob("*.md"):
            text = re.sub(r"^```.*?^```$", "", page.read_text(encoding="utf-8"), flags=re.M | re.S)
            for target in re.findall(r"\]\(([^)\s#]+)[^)\s]*\)", text):
                hold(":" in target or (page.parent / target).exists(), f"{page.name} links to {target}")
                count += 1
        return count

    def client(self):
        """The package of the client, of a copy of the repository with a client if it has none."""
        needed("dpkg", "dpkg-deb", "rt")
        copy = self.room / "copy"
        for name in ("packaging", "testing", "docs", "examples", "crates/city_options", "live"):
            if (ROOT / name).is_dir():
                shutil.copytree(ROOT / name, copy / name, ignore=shutil.ignore_patterns("out", "__pycache__"))
        for name in ("README.md", "CHANGELOG.md", "crates.txt"):
            shutil.copy2(ROOT / name, copy)
        module = copy / "live/cityed.py"
        if not module.is_file():
            module.parent.mkdir(exist_ok=True)
            module.write_text('"""A client."""\n\nNAME = "cityed"\n')
        flags = ["--unproved"] if self.program.name.endswith("-unproved") else []
        words = [copy / "packaging/debian.py", "--maintainer", MAINTAINER, *flags, self.program, self.room / "both"]
        ended(sys.executable, *words, env={"SOURCE_DATE_EPOCH": "1700000000"})
        made = {it.name.split("_")[0]: it for it in (self.room / "both").glob("*.deb")}
        same(sorted(made), ["cityed", "python3-cityed"], "the packages")
        number = ended("dpkg-deb", "--field", made["cityed"], "Version").strip()
        depends = ended("dpkg-deb", "--field", made["python3-cityed"], "Depends")
        same(depends, f"python3:any, cityed (= {number})\n", "what the client needs")
        tree = self.tree("both-tree")
        self.dpkg(tree, "--install", *made.values())
        place = tree / "usr/lib/python3/dist-packages"
        same((place / "cityed.py").read_bytes(), module.read_bytes(), "the module")
        ended(sys.executable, "-c", "import cityed", env={"PYTHONPATH": str(place), "PYTHONDONTWRITEBYTECODE": "1"})
        return 4

    def lintian(self):
        """Lintian finds no error."""
        needed("lintian", "dpkg-deb", "rt")
        made = self.debs(self.room / "linted")
        if (self.room / "both").is_dir():
            made["python3-cityed"] = next((self.room / "both").glob("python3-*.deb"))
        words = ["--fail-on", "error", "--tag-display-limit", "0", *(["--allow-root"] if os.geteuid() == 0 else [])]
        for path in made.values():
            ran = called("lintian", *words, path)
            told = ran.stdout.decode() + ran.stderr.decode()
            hold(ran.returncode == 0 and not re.search(r"^E: ", told, re.M), f"lintian says:\n{told}")
            warned = told.splitlines()
            print(*[f"lintian: {it}" for it in warned], sep="\n", end="\n" if warned else "")
        return len(made)


def usage(text):
    """The forms of a help text, as its source has them."""
    return re.search(r"^Usage: (.*?)\n\n", text, re.M | re.S)[1]


def offered(text):
    """What is offered for some lines, by the lines of Usage of a help text."""
    every = set(options_of(text))
    forms = [set(re.findall(r"--[\w-]+", form)) for form in usage(text).split("\n")]
    beside = lambda *words: sorted(set().union(*(it for it in forms if it >= set(words))) - set(words))
    return {
        "cityed --": sorted(every),
        "cityed --workers 4 --": beside("--workers"),
        "cityed --check --": beside("--check"),
        "cityed --check --decimals --": beside("--check", "--decimals"),
        "cityed --version --": [],
        "cityed --watch ": ["0", "1", "2", "3", "4"],
        "cityed --output ": FILES,
        "cityed --wait ": [],
        "cityed ": FILES,
    }


KINDS = [Trial.description, Trial.man, Trial.completions, Trial.refused_texts, Trial.refused, Trial.packages]
KINDS += [Trial.installed, Trial.client, Trial.lintian]


def main():
    title, usage, about = re.split(r"\n\n    python3 (.*)\n\n", __doc__)
    form = argparse.RawTextHelpFormatter
    words = argparse.ArgumentParser(usage=usage, description=f"{title}\n\n{about}", formatter_class=form)
    words.add_argument("--only", metavar="KIND", choices=[it.__name__ for it in KINDS])
    words.add_argument("program", metavar="PROGRAM", type=lambda it: Path(it).absolute())
    asked = words.parse_args()
    with tempfile.TemporaryDirectory(prefix="packaging-") as room:
        trial = Trial(asked.program, Path(room).resolve())
        for kind in KINDS:
            if asked.only in (None, kind.__name__):
                try:
                    print(f"{kind.__name__}: {kind(trial)}", flush=True)
                except Skipped as why:
                    print(f"{kind.__name__}: skipped, {why}", flush=True)
                except (Wrong, NoAnswer, subprocess.TimeoutExpired) as wrong:
                    print(f"{kind.__name__}: {wrong}")
                    return 1
    return 0


if __name__ == "__main__":
    sys.exit(main())
