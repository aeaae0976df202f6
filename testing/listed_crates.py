"""The crates that crates.txt lists."""

from pathlib import Path

ROOT = Path(__file__).resolve().parent.parent


def listed():
    """Each crate with all that it uses: other crates, and libraries of the toolchain."""
    uses = {}
    for line in (ROOT / "crates.txt").read_text(encoding="utf-8").splitlines():
        names, colon, below = line.partition("#")[0].partition(":")
        if colon:
            uses[names.split()[0]] = below.split()
    return uses


def own(uses):
    """Each crate with the crates that it uses."""
    return {name: [it for it in below if it in uses] for name, below in uses.items()}


def reached(uses, names):
    """The names, and all that is reached from them, each behind what it uses."""
    found = {}

    def visit(name):
        if name not in found:
            for below in uses[name]:
                visit(below)
            found[name] = True

    for name in names:
        visit(name)
    return list(found)
