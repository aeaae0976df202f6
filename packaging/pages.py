"""The pages and examples of the repository, as they are installed."""

import re
from pathlib import PurePosixPath

from source import ROOT

BUILT = "crates/cityed/out/cityed"
FENCE = re.compile(r"^```.*?^```$", re.M | re.S)
LINK = re.compile(r"(?<!!)\[([^\[\]]+)\]\(([^()\s]+)\)")


def sources():
    """The files that are installed, by their names from the root: README.md, docs/ and examples/."""
    found = [ROOT / "README.md", *(ROOT / "docs").rglob("*"), *(ROOT / "examples").rglob("*")]
    names = [it.relative_to(ROOT) for it in found if it.is_file()]
    return sorted(str(it) for it in names if not any(part[0] in "._" for part in it.parts))


def is_installed(page, target, names):
    """Whether a link of a page leads to a page that is installed, or elsewhere."""
    path = target.partition("#")[0]
    if not path or re.match(r"\w+:", target):
        return True
    parts = []
    for part in [*PurePosixPath(page).parent.parts, *PurePosixPath(path).parts]:
        parts = parts[:-1] if part == ".." else [*parts, part]
    place = "/".join(parts)
    return place in names or any(it.startswith(place + "/") for it in names)


def installed(commands):
    """Commands, for the installed program and the installed client."""
    for built, there in ((BUILT, "cityed"), ("python3 live/cityed.py", "python3 -m cityed"), ("PYTHONPATH=live ", "")):
        commands = commands.replace(built, there)
    return commands


def page(name, text, names):
    """A page: its commands call the installed program, and a link to what isn't installed is its words."""
    linked = lambda it: it[0] if is_installed(name, it[2], names) else it[1]
    parts, at = [], 0
    for fence in FENCE.finditer(text):
        parts += [LINK.sub(linked, text[at : fence.start()]), installed(fence[0])]
        at = fence.end()
    return "".join(parts) + LINK.sub(linked, text[at:])


def example(text):
    """An example: the program that it calls is the installed one."""
    return re.sub(rf'Path\(__file__\)\.resolve\(\)\.parents\[\d\] / "{BUILT}"', '"/usr/bin/cityed"', text)


def pages():
    """Each file that is installed, by its name from the root."""
    names = sources()
    for name in names:
        data = (ROOT / name).read_bytes()
        if name.endswith(".md"):
            data = page(name, data.decode(), names).encode()
        elif name.endswith(".py"):
            data = example(data.decode()).encode()
        yield name, data
