"""The licences of the toolchain's libraries that are compiled into a program."""

import re
import shutil
import subprocess
import sys
from pathlib import Path

from source import ROOT, Stop, day_of, made_at

sys.path.append(str(ROOT / "testing"))
from listed_crates import listed, own, reached  # noqa: E402

APACHE = "Apache License, Version 2.0: /usr/share/common-licenses/Apache-2.0"


def toolchain():
    """The folder of the toolchain."""
    if shutil.which("rt") is None:
        raise Stop("there is no command rt: the licences of the libraries in the program come from its toolchain")
    page = subprocess.run(["rt", "doc"], stdin=subprocess.DEVNULL, stdout=subprocess.PIPE, text=True).stdout.strip()
    if not Path(page).is_file():
        raise Stop("rt doc names no page of the toolchain")
    return Path(page).parent


def libraries(top, program):
    """The toolchain's libraries that a program uses, and those that they use."""
    uses = listed()
    names = {it for crate in reached(own(uses), [program]) for it in uses[crate] if it not in uses} | {"std"}
    left = sorted(names)
    while left:
        format = top / "rlibs" / f"{left.pop()}.rlib/format"
        if not format.is_file():
            raise Stop(f"the toolchain has no file {format.relative_to(top)}")
        further = set(re.findall(r"^dep (\w+)$", format.read_text(encoding="utf-8", errors="replace"), re.M))
        left += sorted(further - names)
        names |= further
    return sorted(names)


def text_of(path):
    """The text of a licence; that of Apache is in every Debian system."""
    text = path.read_text(encoding="utf-8").strip()
    return APACHE if "Apache License" in text and "Version 2.0, January 2004" in text else text


def licence_of(folder):
    """The text of a library's licence: of several the one of MIT; none if the toolchain has none of its own for it."""
    found = sorted(folder.glob("LICENSE*"), key=lambda it: (it.name != "LICENSE-MIT", it.name))
    texts = found[:1] + [it for it in found[1:] if not it.name.endswith(("-APACHE", "-MIT"))]
    return "\n\n".join(text_of(it) for it in texts)


def licences(program):
    """Each licence of a program's libraries, with their names: those with the same text together."""
    top, found = toolchain(), {}
    for name in libraries(top, program):
        text = licence_of(top / "rattle" / name)
        if text:
            found.setdefault(text, []).append(name)
    return found


def copyright_of(program):
    """What a package says of licences."""
    own = [it for it in sorted(ROOT.glob("LICEN[CS]E*")) if it.is_file()]
    stand = [it.read_text(encoding="utf-8").strip() for it in own] or ["No licence has been chosen yet."]
    year = day_of(made_at())[:4]
    parts = [f"{program}\n{'=' * len(program)}", f"Copyright (C) {year} the authors of cityed.", *stand]
    for text, names in licences(program).items() if program in listed() else ():
        title = f"In it: {', '.join(names)}"
        parts.append(f"{title}\n{'-' * min(len(title), 80)}\n\n{text}")
    return "\n\n".join(parts) + "\n"
