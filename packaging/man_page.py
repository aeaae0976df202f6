"""A man page, made from a help text."""

import re

LITERAL = {"\\": r"\(rs", "-": r"\-", "'": r"\(aq", "`": r"\(ga", '"': r"\(dq", "^": r"\(ha", "~": r"\(ti"}
MARKED = re.compile(r"(?<![\w-])--?[A-Za-z][\w-]*|\b[A-Z]{2,}\b")
NAMES = {"STATUS": "EXIT STATUS"}  # what man pages call a section


def literal(text):
    """A text as it is, for groff."""
    return "".join(LITERAL.get(it, it) for it in text)


def prose(text):
    """A sentence for groff: a hyphen within a word stays one."""
    return re.sub(r"(?<=[A-Za-z])\\-(?=[A-Za-z])", "-", literal(text))


def bold(text):
    return rf"\fB{literal(text)}\fR"


def italic(text):
    return rf"\fI{literal(text)}\fR"


def marked(text, values):
    """A sentence in which options are bold, and names of values are italic."""
    found, at = [], 0
    for it in MARKED.finditer(text):
        word = it[0]
        if word.startswith("-") or word in values:
            found += [prose(text[at : it.start()]), bold(word) if word.startswith("-") else italic(word)]
            at = it.end()
    return "".join(found) + prose(text[at:])


def line(text):
    """A line of text that isn't taken for a request."""
    return rf"\&{text}" if text[:1] in (".", "'") else text


def values_of(help):
    """The names of values, and of arguments."""
    return {it.value for it in help.options if it.value} | {it.name for it in help.arguments}


def synopsis(help, values):
    """The forms, each broken only between its parts."""
    for form in help.forms:
        program, *words = form.split(" ")
        kept = re.sub(r"\[[^\[\]]*\]", lambda it: it[0].replace(" ", "\0"), " ".join(words))
        parts = re.split(r"(--?[A-Za-z][\w-]*|[A-Z]+)", kept)
        drawn = [italic(it) if it in values else bold(it) if it.startswith("-") else literal(it) for it in parts]
        yield from (f".HP {len(program) + 1}", bold(program) + " " + "".join(drawn).replace("\0", r"\ "))


def term_of(option):
    """How an option is written."""
    words = ", ".join(bold(word) for word in option.words)
    return f"{words} {italic(option.value)}" if option.value else words


def blocks(lines):
    """The parts of a paragraph: sentences, lines as they are, and terms with what is said of them."""
    found = []
    for text in lines:
        indent = len(text) - len(text.lstrip())
        term = re.fullmatch(r"(\S.*?) {2,}(\S.*)", text.strip()) if indent else None
        if term:
            found.append(("term", term[1], [term[2]]))
        elif indent > 2 and found and found[-1][0] == "term":
            found[-1][2].append(text.strip())
        elif indent:
            found.append(("lines", None, [text.strip()]))
        elif found and found[-1][0] == "text":
            found[-1][2].append(text)
        else:
            found.append(("text", None, [text]))
    return found


def paragraph(lines, values):
    """A paragraph for groff."""
    for kind, term, texts in blocks(lines):
        if kind == "text":
            yield ".PP"
            yield from (line(marked(it, values)) for it in texts)
        elif kind == "term":
            yield from (".TP", line(bold(term)))
            yield from (line(marked(it, values)) for it in texts)
        else:
            yield from (".PP", ".RS 4", ".nf")
            yield from (line(literal(it)) for it in texts)
            yield from (".fi", ".RE")


def sections(help):
    """The paragraphs behind the options, by section: one that begins with a word and a colon has its own."""
    found = {"DESCRIPTION": [help.about]}
    for lines in help.details:
        headed = re.fullmatch(r"([A-Z]\w*):", lines[0])
        if headed:
            name = headed[1].upper()
            found.setdefault(NAMES.get(name, name), []).append(lines[1:])
        else:
            found["DESCRIPTION"].append(lines)
    return found


def man_page(help, version, day, places=()):
    """The man page of a program, from its help text. `day` is its date, and `places` are those of further pages."""
    values, program = values_of(help), help.program
    first = help.about[0].split(". ")[0].rstrip(".")
    head = [literal(program.upper()), day, literal(f"{program} {version}")]
    yield rf".\" Made from the help text of {program} {version}."
    yield '.TH {} 1 "{}" "{}" "User Commands"'.format(*head)
    yield from (".nh", ".ad l", ".SH NAME", rf"{literal(program)} \- {prose(first[0].lower() + first[1:])}")
    yield ".SH SYNOPSIS"
    yield from synopsis(help, values)
    there = sections(help)
    yield from section("DESCRIPTION", there.pop("DESCRIPTION"), values)
    if help.arguments:
        yield ".SH ARGUMENTS"
        for it in help.arguments:
            yield from (".TP", italic(it.name), line(marked(it.help, values)))
    yield ".SH OPTIONS"
    yield from listed(help.options, values)
    for name, parts in there.items():
        yield from section(name, parts, values)
    for words, other in help.further.items():
        yield from further(words, other, help)
    if places:
        yield ".SH SEE ALSO"
        yield from ",\n.br\n".join(italic(it) for it in places).split("\n")


def listed(options, values):
    """Options, each with its help."""
    for it in options:
        yield from (".TP", term_of(it), line(marked(it.help, values)))


def section(name, parts, values, request=".SH"):
    """A section, and its paragraphs."""
    lines = [it for part in parts for it in paragraph(part, values)]
    yield from (f"{request} {literal(name)}", *lines[lines[:1] == [".PP"] :])


def further(words, other, help):
    """The section of a further command line: what is said of it, and options of which it says something else."""
    values, there = values_of(other), sections(other)
    about, *details = there.pop("DESCRIPTION")
    yield from section(f"WITH {words}", [about], values)
    yield from listed([it for it in other.options if it not in help.options], values)
    for lines in details:
        yield from paragraph(lines, values)
    for name, parts in there.items():
        yield from section(name.capitalize(), parts, values, ".SS")
