#!/usr/bin/env python3
"""Makes Debian packages of a proved cityed: the program with its man page, completions, pages and examples.

    python3 packaging/debian.py [--maintainer "NAME <MAIL>"] [--unproved] PROGRAM OUT

PROGRAM is crates/cityed/out/cityed, which rt run builds, and OUT a folder. Its version and help text have to be those
of this repository. If there is a client, live/cityed.py, the package python3-cityed is made too. Without --maintainer,
DEBFULLNAME and DEBEMAIL name who makes the package. From the same files the same bytes are made: times are those of
the last commit, or SOURCE_DATE_EPOCH.

A program whose name ends in -unproved is refused. For trials, --unproved packs it all the same; then the version and
the description of the package say so. Needs dpkg-deb, and the toolchain for the licences of what is in the program.
"""

import argparse
import gzip
import hashlib
import os
import re
import shutil
import stat
import subprocess
import sys
import tempfile
import textwrap
import time
from pathlib import Path

from elf import Elf, depends
from generate import files, help_in, help_of
from help_text import NotHelp
from licences import copyright_of
from pages import pages
from source import HELP, ROOT, Stop, made_at, said, version

END = "-unproved"
CLIENT = ROOT / "live/cityed.py"
ABOUT = """\
cityed edits a CityJSON 2.0 city model by scripts, each done whole or not at all, and reports what each one found and \
did. After every script parents and children agree, and every solid is closed.
"""
PROVED = """\
It is proved: for every model, script text and number of workers, the output equals running the scripts one after \
another, in the order in which the report lists them. The pages say what else is proved, and what is only tested.
"""
UNPROVED = "This one was built without its proof, for trials alone."
CLIENT_ABOUT = """\
This module starts cityed as a program that holds a model, or joins one that runs, and edits it in transactions beside \
others who do the same.
"""
# What lintian would say of a program that is packed as it is.
OVERRIDES = """\
# The program is packed byte by byte as it was proved and built.
cityed: unstripped-binary-or-object [usr/bin/cityed]
"""
READ_FIRST = """\
README.md, docs and examples are those of the source. Their commands can be given in this folder, and write to /tmp.
Those that build, prove or try the program need the source.
"""
COMPILE = {
    "postinst": "command -v py3compile > /dev/null && py3compile -p python3-cityed",
    "prerm": "command -v py3clean > /dev/null && py3clean -p python3-cityed",
}


class Package:
    """A package: its files by their places, and what is said of it."""

    def __init__(self, name, number, fields, about):
        self.name, self.number, self.fields, self.about = name, number, fields, about
        self.files, self.scripts = {}, {}

    def put(self, place, data, mode=0o644):
        self.files[place] = (data.encode() if isinstance(data, str) else data, mode)

    def put_zipped(self, place, data):
        self.put(f"{place}.gz", gzip.compress(data.encode(), 9, mtime=0))

    @property
    def size(self):
        """In KiB, as dpkg counts: each file by itself, and each folder."""
        folders = {part for place in self.files for part in Path(place).parents}
        return sum(-(-len(data) // 1024) for data, _ in self.files.values()) + len(folders)

    def control(self):
        """The file that says what the package is."""
        fields = {"Package": self.name, "Version": self.number, **self.fields, "Installed-Size": self.size}
        first, *rest = self.about
        lines = [f"{name}: {value}" for name, value in fields.items()]
        wrapped = ["\n".join(f" {line}" for line in textwrap.wrap(part, 76)) for part in rest]
        return "\n".join([*lines, f"Description: {first}", "\n .\n".join(wrapped)]) + "\n"

    def sums(self):
        """The sum of each file, by which an installed package is verified."""
        return "".join(f"{hashlib.md5(data).hexdigest()}  {it}\n" for it, (data, _) in sorted(self.files.items()))

    def build(self, out, when):
        """Writes the package into a folder, whole or not at all."""
        with tempfile.TemporaryDirectory(prefix="debian-") as folder:
            tree, made = Path(folder) / "tree", Path(folder) / "made.deb"
            for place, (data, mode) in self.files.items():
                write(tree / place, data, mode)
            write(tree / "DEBIAN/control", self.control().encode(), 0o644)
            write(tree / "DEBIAN/md5sums", self.sums().encode(), 0o644)
            for name, command in self.scripts.items():
                write(tree / "DEBIAN" / name, f"#!/bin/sh\nset -e\nif {command}; then :; fi\n".encode(), 0o755)
            for it in [tree, *tree.rglob("*")]:
                if it.is_dir():
                    it.chmod(0o755)
                os.utime(it, (when, when))
            words = ["dpkg-deb", "--root-owner-group", "-Zxz", "--build", tree, made]
            given = {"env": {**os.environ, "SOURCE_DATE_EPOCH": str(when)}, "stdin": subprocess.DEVNULL}
            ran = subprocess.run(words, stdout=subprocess.PIPE, stderr=subprocess.STDOUT, **given)
            if ran.returncode:
                raise Stop(f"dpkg-deb says: {ran.stdout.decode(errors='replace').strip()}")
            return put(made, Path(out) / f"{self.name}_{self.number}_{self.fields['Architecture']}.deb")


def write(path, data, mode):
    path.parent.mkdir(parents=True, exist_ok=True)
    path.write_bytes(data)
    path.chmod(mode)


def put(made, place):
    """Puts a made file into its place, whole."""
    part = place.with_name(f".{place.name}.{os.getpid()}.part")
    try:
        shutil.copyfile(made, part)
        os.replace(part, place)
    finally:
        part.unlink(missing_ok=True)
    return place


def is_named_unproved(program):
    """Whether a program's name, or that of the file behind a link, says that it isn't proved."""
    return any(it.name.endswith(END) for it in (program, program.resolve()))


def admit(program, unproved):
    """Sees that the program may be packed, and returns whether it counts as proved."""
    if not program.is_file() or not os.access(program, os.X_OK):
        raise Stop(f"there is no program {program}")
    if is_named_unproved(program) and not unproved:
        raise Stop(f"{program} isn't proved, by its name; --unproved packs it for trials")
    if said(program, "--version") != f"cityed {version()}\n":
        raise Stop(f"{program} --version isn't that of this repository, {version()}")
    if said(program, "--help") != HELP.read_text(encoding="utf-8") or help_of(program) != help_in(HELP):
        raise Stop(f"{program} --help isn't {HELP.relative_to(ROOT)}: it was built from other sources")
    return not unproved


def maintainer(given):
    """Who makes the package."""
    name, mail = (os.environ.get(it, "") for it in ("DEBFULLNAME", "DEBEMAIL"))
    it = given or (f"{name} <{mail}>" if name and mail else "")
    if not re.fullmatch(r"[^<>\n]*[^<>\s] <[^<>@\s]+@[^<>@\s]+>", it):
        raise Stop('nobody makes the package: give --maintainer "NAME <MAIL>", or DEBFULLNAME and DEBEMAIL')
    return it


def changelog(package, number, who, when):
    """The entry of this package in Debian's form."""
    date = time.strftime("%a, %d %b %Y %H:%M:%S +0000", time.gmtime(when))
    return f"{package} ({number}) unstable; urgency=medium\n\n  * Made from the sources.\n\n -- {who}  {date}\n"


def add_papers(package, who, when):
    """Adds what each package has to have: its licences, and what changed."""
    folder = f"usr/share/doc/{package.name}"
    package.put(f"{folder}/copyright", copyright_of(package.name))
    package.put_zipped(f"{folder}/changelog.Debian", changelog(package.name, package.number, who, when))


def program_package(program, number, who, when, is_proved):
    """The package of the program."""
    elf = Elf(program.read_bytes(), program)
    fields = {"Architecture": elf.machine, "Maintainer": who, "Section": "science", "Priority": "optional"}
    needed = depends(elf)
    if needed:
        fields["Depends"] = needed
    if CLIENT.is_file():
        fields["Suggests"] = "python3-cityed"
    about = ["editor of CityJSON 2.0 city models by scripts", ABOUT, PROVED if is_proved else UNPROVED]
    package = Package("cityed", number, fields, about)
    package.put("usr/bin/cityed", program.read_bytes(), 0o755)
    made = files(help_of(program), version(), ["/usr/share/doc/cityed/README.md", "/usr/share/doc/cityed/docs"])
    package.put_zipped("usr/share/man/man1/cityed.1", made["cityed.1"])
    package.put("usr/share/bash-completion/completions/cityed", made["cityed.bash"])
    package.put("usr/share/zsh/vendor-completions/_cityed", made["_cityed"])
    package.put("usr/share/fish/vendor_completions.d/cityed.fish", made["cityed.fish"])
    for name, data in pages():
        package.put(f"usr/share/doc/cityed/{name}", data, mode_of(name))
    package.put("usr/share/doc/cityed/README.Debian", READ_FIRST)
    package.put_zipped("usr/share/doc/cityed/changelog", (ROOT / "CHANGELOG.md").read_text(encoding="utf-8"))
    package.put("usr/share/lintian/overrides/cityed", OVERRIDES)
    add_papers(package, who, when)
    return package


def mode_of(name):
    """The mode of a file of the repository: that of a program, or of a text."""
    return 0o755 if (ROOT / name).stat().st_mode & stat.S_IXUSR else 0o644


def client_package(number, who, when):
    """The package of the client for Python."""
    fields = {"Architecture": "all", "Maintainer": who, "Section": "python", "Priority": "optional"}
    fields["Depends"] = f"python3:any, cityed (= {number})"
    about = ["client for Python of the CityJSON editor cityed", CLIENT_ABOUT]
    package = Package("python3-cityed", number, fields, about)
    package.put("usr/lib/python3/dist-packages/cityed.py", CLIENT.read_bytes())
    package.scripts = COMPILE
    add_papers(package, who, when)
    return package


def make(program, out, given, unproved):
    """Makes the packages, and returns their paths."""
    is_proved = admit(program, unproved)
    who, when = maintainer(given), made_at()
    if shutil.which("dpkg-deb") is None:
        raise Stop("there is no command dpkg-deb")
    number = f"{version()}{'' if is_proved else '~unproved'}-1"
    packages = [program_package(program, number, who, when, is_proved)]
    packages += [client_package(number, who, when)] if CLIENT.is_file() else []
    out.mkdir(parents=True, exist_ok=True)
    return [it.build(out, when) for it in packages]


def main():
    title, usage, about = re.split(r"\n\n    python3 (.*)\n\n", __doc__)
    form = argparse.RawTextHelpFormatter
    words = argparse.ArgumentParser(usage=usage, description=f"{title}\n\n{about}", formatter_class=form)
    words.add_argument("--maintainer", metavar="NAME <MAIL>")
    words.add_argument("--unproved", action="store_true", help="for trials: pack a program that isn't proved")
    words.add_argument("program", metavar="PROGRAM", type=lambda it: Path(it).absolute())
    words.add_argument("out", metavar="OUT", type=Path)
    asked = words.parse_args()
    try:
        for place in make(asked.program, asked.out, asked.maintainer, asked.unproved):
            print(f"made {place}{', of a program that is not proved: for trials alone' if asked.unproved else ''}")
    except (Stop, NotHelp, OSError) as why:
        print(f"debian: no package is made, since {why}", file=sys.stderr)
        return 1
    return 0


if __name__ == "__main__":
    sys.exit(main())
