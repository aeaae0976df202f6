#!/usr/bin/env python3
"""Makes the man page of cityed and its completions for bash, zsh and fish from its help text.

    python3 packaging/generate.py HELP OUT

HELP is the program, or a file with its help text: testing/help.txt, and beside it help_live.txt for a command line with
--live that has a help text of its own. The files go into the folder OUT: cityed.1,
cityed.bash, _cityed (for zsh) and cityed.fish. packaging/README.md says where each belongs.
"""

import os
import sys
from pathlib import Path

from completions import bash, fish, zsh
from help_text import NotHelp, further_lines, read_help, with_further
from man_page import man_page
from source import Stop, day_of, made_at, said, version


def files(help, number, places=()):
    """The files that are made of a program's help, by their names."""
    name = help.program
    made = {
        f"{name}.1": man_page(help, number, day_of(made_at()), places),
        f"{name}.bash": bash(help),
        f"_{name}": zsh(help),
        f"{name}.fish": fish(help),
    }
    return {it: "\n".join(lines) + "\n" for it, lines in made.items()}


def help_by(tell):
    """A program's help, by what tells its text for the words before --help."""
    text = tell("")
    return with_further(read_help(text), {words.strip(): read_help(tell(words)) for words in further_lines(text)})


def help_of(program):
    """The help that a program prints."""
    return help_by(lambda words: said(program, *words.split(), "--help"))


def help_in(path):
    """The help in a file, and in the files beside it for further command lines."""
    name = lambda words: path.stem + words.replace("--", "").replace(" ", "_")
    return help_by(lambda words: path.with_stem(name(words)).read_text(encoding="utf-8"))


def told(path):
    """The help and the version of a program, or of a file with its help text."""
    if os.access(path, os.X_OK):
        return help_of(path), said(path, "--version").split()[-1]
    return help_in(Path(path)), version()


def main():
    if len(sys.argv) != 3:
        print(__doc__)
        return 2
    try:
        made, out = files(*told(os.path.abspath(sys.argv[1]))), Path(sys.argv[2])
        out.mkdir(parents=True, exist_ok=True)
        for name, text in made.items():
            (out / name).write_text(text, encoding="utf-8")
    except (Stop, NotHelp, OSError) as why:
        print(f"generate: nothing is made, since {why}")
        return 1
    return 0


if __name__ == "__main__":
    sys.exit(main())
