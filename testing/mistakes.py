#!/usr/bin/env python3
"""Plays common mistakes on cityed, and sees that what is told of each names the file, the place and a cure.

    python3 testing/mistakes.py PROGRAM [--table]

PROGRAM is a built cityed. Each mistake is played with --explain, with a terminal as standard error, with a pipe as
standard error, where the line of the fault has to stay alone, and with --check where it is one of a text. A mistake
that is no fault is played beside the commands that were meant, and each is told by its replies alone. Prints how many
were played, or with --table Markdown tables of what is told, and ends at the first wrong answer with status 1.
"""

import argparse
import json
import os
import pty
import re
import subprocess
import sys
import tempfile

from told_mistakes import CASES, MODEL, SCRIPTS, SILENT

LIMIT = 60
FILES = {"tile.city.json": MODEL, "scripts.json": SCRIPTS}
ALL_FAULTS = "  all faults: cityed --check "


class Wrong(Exception):
    """The program told something else than it should."""


def prepare(folder, case):
    """Writes the two files, as the mistake changes them, and a folder."""
    os.makedirs(os.path.join(folder, "folder"), exist_ok=True)
    for name, text in FILES.items():
        with open(os.path.join(folder, name), "wb") as file:
            file.write(case.changed(name, text))


def call(program, folder, case, *options, terminal=False):
    """Status, output and standard error of a call; output goes where the mistake sends it."""
    prepare(folder, case)
    words = [program, *options, *case.words]
    sent = open(os.path.join(folder, case.output), "wb") if case.output else subprocess.PIPE
    try:
        if not terminal:
            ran = subprocess.run(words, stdout=sent, stderr=subprocess.PIPE, cwd=folder, timeout=LIMIT, check=False)
            return ran.returncode, ran.stdout or b"", ran.stderr.decode("utf-8")
        return on_terminal(words, folder, sent)
    finally:
        if case.output:
            sent.close()


def on_terminal(words, folder, sent):
    """The same, where standard error is a terminal."""
    mine, its = pty.openpty()
    with subprocess.Popen(words, stdout=sent, stderr=its, stdin=subprocess.DEVNULL, cwd=folder) as running:
        os.close(its)
        told = b""
        while True:
            try:
                piece = os.read(mine, 65536)
            except OSError:
                break
            if not piece:
                break
            told += piece
        output = running.stdout.read() if running.stdout else b""
        status = running.wait(LIMIT)
    os.close(mine)
    return status, output, told.decode("utf-8").replace("\r\n", "\n")


def details_of(told):
    """The indented lines below a fault's line, by their names."""
    found = {}
    for line in told.splitlines()[1:]:
        match = re.fullmatch(r"  (file|where|what|cure|all faults): (.+)", line)
        if not match or match[1] in found:
            raise Wrong(f"a line of details: {line!r}")
        found[match[1]] = match[2]
    return found


def require(holds, what, told):
    if not holds:
        raise Wrong(f"{what}; told was:\n{told}")


def explained(program, folder, case):
    """What is told with --explain has the fault's line, the file, the place, what is wrong and a cure."""
    status, output, told = call(program, folder, case, "--explain")
    require((status, output) == (1, b""), f"status 1 and no output, not {status} and {output[:100]}", told)
    lines = told.splitlines()
    require(lines and lines[0] == case.line, f"the line {case.line}", told)
    details = details_of(told)
    require(details.get("file") == case.file, f"the file {case.file}", told)
    for name, words in (("where", case.where), ("what", case.what), ("cure", case.cure)):
        for word in words:
            require(re.search(word, details.get(name, "")), f"{word} in {name}", told)
    if case.is_of_text():
        for name in ("what", "cure"):
            require(is_sentence(details.get(name)), f"a sentence as {name}", told)
        require(lines[-1] == ALL_FAULTS + " ".join(case.words), "a way to all faults", told)
    return told


def is_sentence(text):
    return isinstance(text, str) and text[0].isupper() and text.endswith(".")


def by_terminal_and_pipe(program, folder, case, told):
    """A terminal as standard error is told the details without the option, and a pipe isn't."""
    found = call(program, folder, case, terminal=True)
    require(found == (1, b"", told), "the same details at a terminal", found[2])
    found = call(program, folder, case)
    require(found == (1, b"", case.line + "\n"), "the line alone through a pipe", found[2])


def checked(program, folder, case):
    """With --check the mistake is the first line, with its details."""
    status, output, told = call(program, folder, case, "--check")
    if not case.is_of_text():
        require((status, output, told) == (1, b"", case.line + "\n"), f"{case.line} alone", f"{output!r} {told}")
        return
    require((status, told) == (1, "") and output, "status 1 and lines", f"{status} {output!r} {told}")
    first = json.loads(output.splitlines()[0])
    for name, value in case.members.items():
        require(first.get(name) == value, f"{name} {value!r} in the first line", output.decode("utf-8"))
    for name in ("message", "cure"):
        require(is_sentence(first.get(name)), f"a sentence as {name}", output.decode("utf-8"))


def play(program, folder, case):
    told = explained(program, folder, case)
    by_terminal_and_pipe(program, folder, case, told)
    if case.can_be_checked():
        checked(program, folder, case)
    return told


def play_silent(program, folder, case):
    """A mistake that is no fault, and what was meant, have their replies and leave their members."""
    ways = ((case.made, case.told, case.left), (case.meant, case.answered, case.kept))
    for commands, wanted, members in ways:
        scripts = [{"name": "s", "commands": [*each, "commit"]} for each in commands]
        for name, text in (("model", MODEL), ("edits", json.dumps(scripts).encode("utf-8"))):
            with open(os.path.join(folder, name), "wb") as file:
                file.write(text)
        for options, status_lines in (["--explain"], len(scripts) + 1), (["--check"], 0):
            words = [program, *options, "model", "edits"]
            ran = subprocess.run(words, capture_output=True, cwd=folder, timeout=LIMIT, check=False)
            lines = ran.stdout.splitlines()
            ends = [json.loads(line) for line in lines[:-1]]
            refused = [f"script {end['script']} refused: {end['cause']}" for end in ends if "cause" in end]
            heads = [line for line in ran.stderr.decode("utf-8").splitlines() if not line.startswith("  ")]
            quiet = (ran.returncode, heads, len(lines)) == (0, refused, status_lines)
            require(quiet, f"{status_lines} lines, and why {len(refused)} are refused", f"{case.mistake}: {ran}")
            if lines:
                told = [end.get("cause") or ", ".join(end["replies"]) for end in ends]
                left = " ".join(sorted(json.loads(lines[-1])["CityObjects"]["b12"]))
                require((told, left) == (wanted, members), f"{wanted} and {members}", f"{case.mistake}: {told} {left}")


def silent_row(case):
    """A row of the table of mistakes that are no faults."""
    meant = "; ".join(", ".join(next(iter(command)) for command in script) for script in case.meant)
    return f"| {case.mistake} | `{'`, `'.join(case.told)}` | {meant} | `{'`, `'.join(case.answered)}` |"


def row(case, told):
    """A row of the table: the mistake, the line, and what the details say."""
    details = details_of(told)
    place = ": ".join(details[name] for name in ("file", "where") if name in details)
    cells = [case.mistake, f"`{case.line}`", place, details.get("what", ""), details.get("cure", "")]
    return "| " + " | ".join(cell.replace("|", "\\|") for cell in cells) + " |"


def main():
    asked = argparse.ArgumentParser(description=__doc__, formatter_class=argparse.RawDescriptionHelpFormatter)
    asked.add_argument("program")
    asked.add_argument("--table", action="store_true")
    asked = asked.parse_args()
    program = os.path.abspath(asked.program)
    rows = []
    with tempfile.TemporaryDirectory() as folder:
        for case in CASES:
            try:
                rows.append(row(case, play(program, folder, case)))
            except (Wrong, subprocess.TimeoutExpired) as wrong:
                print(f"WRONG at {case.mistake}: {wrong}")
                return 1
        try:
            for case in SILENT:
                play_silent(program, folder, case)
        except (Wrong, subprocess.TimeoutExpired) as wrong:
            print(f"WRONG: {wrong}")
            return 1
    if asked.table:
        print("\n".join(["| mistake | line | where | what | cure |", "| --- | --- | --- | --- | --- |", *rows]))
        head = ["", "| mistake | told | meant | told |", "| --- | --- | --- | --- |"]
        print("\n".join([*head, *map(silent_row, SILENT)]))
    else:
        print(f"{len(rows)} mistakes are told as they should be, and {len(SILENT)} by their replies alone")
    return 0


if __name__ == "__main__":
    sys.exit(main())
