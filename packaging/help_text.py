"""What a program's help text says: its forms, arguments, options, and the words behind them.

A program may have further command lines, each with a help text of its own. The first text names them: `NAME --live
--help` in backquotes. Nothing here knows an option by its name, so a new one needs no change. A text of another form is
refused.
"""

import re
from dataclasses import dataclass, field, replace
from functools import cached_property

USAGE = "Usage: "
ENTRY = re.compile(r" {2,}(?=[-\[<])(\S.*?)(?: {2,}(\S.*))?")
OPTION = re.compile(r"(?:-(\w)(?:, )?)?(?:--([\w-]+))?(?:[ =]<([^<>]+)>)?")
ARGUMENT = re.compile(r"[\[<]([\w-]+)[\]>](?:\.\.\.)?")
LAST = ("help", "version")
MOST_NUMBERS = 32  # a longer range of numbers isn't listed one by one


class NotHelp(Exception):
    """The text isn't the help text of a command line."""


@dataclass(frozen=True)
class Option:
    """An option: its letter and its name, of which one may be missing, the name of its value, and its help."""

    letter: str | None
    name: str | None
    value: str | None
    help: str

    @property
    def key(self):
        """By what a form names it."""
        return self.name or self.letter

    @property
    def words(self):
        """How it may be written."""
        return ([f"-{self.letter}"] if self.letter else []) + ([f"--{self.name}"] if self.name else [])

    @property
    def takes_file(self):
        return self.value is not None and re.search(r"FILE|PATH", self.value) is not None

    @property
    def takes_folder(self):
        return self.value is not None and re.search(r"FOLDER|DIR", self.value) is not None

    @property
    def choices(self):
        """The values that it takes, if its help lists them, or names a range of a few numbers."""
        listed = re.search(r"\[possible values: ([^\]]+)\]", self.help)
        if listed:
            return listed[1].split(", ")
        ends = re.search(r"\b(\d+) to (\d+)\b", self.help) if self.value else None
        numbers = range(int(ends[1]), int(ends[2]) + 1) if ends else ()
        return [str(it) for it in numbers] if len(numbers) <= MOST_NUMBERS else []


@dataclass(frozen=True)
class Argument:
    """An argument, and its help."""

    name: str
    help: str


@dataclass(frozen=True)
class Help:
    """A help text, in its parts."""

    about: list  # lines
    forms: list  # of Usage, each in one line
    arguments: list
    options: list
    details: list  # paragraphs, each a list of lines
    further: dict = field(default_factory=dict)  # the help of further command lines, by their words

    @property
    def program(self):
        return self.forms[0].split()[0]

    @cached_property
    def in_forms(self):
        """The keys of the options of each form."""
        by_word = {word: it.key for it in self.options for word in it.words}
        found = [re.findall(r"(?<![\w-])--?[\w-]+", form) for form in self.forms]
        unknown = [word for words in found for word in words if word not in by_word]
        if unknown:
            raise NotHelp(f"Usage has {unknown[0]}, which no line of Options has")
        asked = [[*words.split(), "--help"] for words in self.further]
        return [{by_word[word] for word in words} for words in [*found, *asked] if set(words) <= by_word.keys()]

    def beside(self, option):
        """The options that may stand on a line beside this one: those that a form has together with it."""
        together = set().union(*(keys for keys in self.in_forms if option.key in keys))
        return [it for it in self.options if it.key in together and it.key != option.key]

    def apart(self, option):
        """The options that may not stand on a line beside this one; an option in no form stands alone."""
        beside = self.beside(option)
        return [it for it in self.options if it.key != option.key and it not in beside]


def paragraphs(text):
    """The paragraphs of a text, each a list of lines."""
    return [part.split("\n") for part in re.split(r"\n(?:[ \t]*\n)+", text.strip("\n")) if part.strip()]


def is_listing(lines):
    """Whether a paragraph lists options or arguments."""
    first = lines[0]
    headed = re.fullmatch(r"[A-Z][\w ]*:", first) is not None and len(lines) > 1
    return ENTRY.fullmatch(lines[1] if headed else first) is not None


def entries(lines):
    """The entries of a listing: a term and its help, which may go on in deeper lines."""
    found = []
    for line in lines:
        entry = ENTRY.fullmatch(line)
        if entry and len(line) - len(line.lstrip()) <= 6:
            found.append((entry[1], [entry[2]] if entry[2] else []))
        elif found and line.startswith(" " * 8):
            found[-1][1].append(line.strip())
        elif not re.fullmatch(r"[A-Z][\w ]*:", line):
            raise NotHelp(f"no entry of a listing: {line}")
    return [(term, " ".join(words)) for term, words in found]


def read_help(text):
    """Reads a help text."""
    if "\n" + USAGE not in text:
        raise NotHelp("there is no line that begins with Usage:")
    about, rest = text.split("\n" + USAGE, 1)
    usage, *rest = paragraphs(rest)
    listings = []
    while rest and is_listing(rest[0]):
        listings += entries(rest.pop(0))
    arguments, options = [], []
    for term, words in listings:
        argument, option = ARGUMENT.fullmatch(term), OPTION.fullmatch(term)
        if argument:
            arguments.append(Argument(argument[1], words))
        elif option and (option[1] or option[2]):
            options.append(Option(option[1], option[2], option[3], words))
        else:
            raise NotHelp(f"neither an argument nor an option: {term}")
    if not options:
        raise NotHelp("there are no options")
    return Help([it for it in about.split("\n") if it], joined(usage), arguments, options, rest)


def further_lines(text):
    """The words of the further command lines that a help text names."""
    return re.findall(r"`[\w-]+((?: --[\w-]+)+) --help`", text)


def with_further(help, further):
    """A program's help with that of its further command lines, given by their words."""
    options, forms = list(help.options), list(help.forms)
    for other in further.values():
        options += [it for it in other.options if it.key not in {one.key for one in options}]
        forms += [it for it in other.forms if it not in forms]
    options.sort(key=lambda it: it.key in LAST)
    return replace(help, options=options, forms=forms, further=further)


def joined(lines):
    """The forms of Usage: one begins where the program's name does, and the other lines go on."""
    program, forms = lines[0].split()[0], []
    for line in lines:
        if line.split()[0] == program:
            forms.append(" ".join(line.split()))
        else:
            forms[-1] += " " + line.strip()
    return forms
