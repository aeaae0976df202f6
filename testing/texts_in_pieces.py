#!/usr/bin/env python3
"""Has documents that are cut, changed, deep or broken read in pieces, and compares each with second_reading.py.

    python3 testing/texts_in_pieces.py SCENARIOS [--only KIND]

SCENARIOS is the built city_scenarios. The documents are those of hostile_texts.py, each once; a scenario `document`
reads each at once and in 2, 3 and 8 pieces of a byte at least. Prints one line for each kind with how many were tried,
and ends at the first that is read otherwise with status 1, its scenarios in a file.
"""

import argparse
import os
import subprocess
import sys
import tempfile

import second_reading as second
from hostile_texts import KINDS, limits

# a scenario's file has so many: one that fails is found in it again
MANY = 1000


def named(number, document):
    """The document as a text with a name, byte by byte."""
    codes = [str(byte) for byte in document]
    lines = ["bytes " + " ".join(codes[place:place + 64]) for place in range(0, len(codes), 64)]
    return "\n".join([f"let text {number}", *lines])


def scenario(number, document):
    output, fault = second.run(document, b"[]")
    answer = output.decode("utf-8").rstrip("\n") if fault is None else fault
    return f"Text {number}\ndocument\n$text {number}\n----\n{answer}"


def documents(kind):
    """Its documents, each once. A file of scenarios is too large a form for the longest.

    A text with a backslash is read at once, so it is also tried with other signs in the place of its escapes.
    """
    seen = set()
    for document, _ in kind():
        for text in (document, document.replace(b'\\"', b"'").replace(b"\\", b"/")):
            if text not in seen and len(text) < 1_000_000:
                seen.add(text)
                yield text


def groups(items, size):
    group = []
    for item in items:
        group.append(item)
        if len(group) == size:
            yield group
            group = []
    if group:
        yield group


def play(program, path, texts):
    """Whether all are read as they have to be; else what the program says."""
    parts = [part for number, text in enumerate(texts) for part in (named(number, text), scenario(number, text))]
    with open(path, "w", encoding="utf-8") as file:
        file.write("\n\n".join(parts) + "\n")
    ran = subprocess.run([program, path], capture_output=True, check=False)
    if (ran.returncode, ran.stdout) == (0, f"{path}: {len(texts)} played\n".encode()):
        return None
    return (ran.stdout + ran.stderr).decode("utf-8", "replace")[:2000]


def main():
    asked = argparse.ArgumentParser(description=__doc__, formatter_class=argparse.RawDescriptionHelpFormatter)
    asked.add_argument("scenarios")
    asked.add_argument("--only")
    asked = asked.parse_args()
    program, path = os.path.abspath(asked.scenarios), os.path.join(tempfile.mkdtemp(prefix="pieces-"), "texts.txt")
    for kind in KINDS:
        if kind is limits or asked.only not in (None, kind.__name__):
            continue
        count = 0
        for texts in groups(documents(kind), MANY):
            said = play(program, path, texts)
            if said is not None:
                print(f"{kind.__name__}: {path}\n{said}")
                return 1
            count += len(texts)
        print(f"{kind.__name__}: {count} agree", flush=True)
    os.remove(path)
    os.rmdir(os.path.dirname(path))
    return 0


if __name__ == "__main__":
    sys.exit(main())
