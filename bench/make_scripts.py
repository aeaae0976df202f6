#!/usr/bin/env python3
"""Prints scripts that edit a plain city of make_city.py, as the program reads them.

usage: make_scripts.py KIND SCRIPTS COMMANDS OBJECTS [SHARED] > scripts.json

Each script has so many commands, the last of which is its commit. KIND says what they are:
  reads   reads of the city's OBJECTS, each of which is replied whole
  puts    puts of a short body at them
  wholes  puts of all that they have, 600 bytes, with one attribute more
  sets    sets of that attribute alone
  expects expects of an attribute that they have, and sets of that one
  makes   puts of new objects and deletes of them, in turn
The ids step through the city, so that scripts seldom meet; with SHARED, each script's second half is of
the first SHARED objects, where scripts that run at once do meet.
"""
import json
import sys

from plain import TYPES, plain_object

if len(sys.argv) not in (5, 6):
    sys.exit(__doc__)
kind = sys.argv[1]
scripts, commands, objects = (int(word) for word in sys.argv[2:5])
shared = int(sys.argv[5]) if len(sys.argv) == 6 else 0


def command(script, n):
    number = (script * commands + (n // 2 if kind == "expects" else n)) * 7919 % objects
    if shared and n >= commands // 2:
        number = (script + n) % shared
    name = f"object-{number:08}"
    if kind == "reads":
        return {"read": name}
    if kind == "puts":
        return {"put": name, "object": {"type": TYPES[number % len(TYPES)]}}
    if kind == "wholes":
        whole = plain_object(number, 600)
        whole["attributes"]["checked"] = n
        return {"put": name, "object": whole}
    if kind == "expects" and n % 2 == 0:
        return {"expect": name, "attributes": {"owner": "municipality"}}
    if kind in ("sets", "expects"):
        return {"set": name, "attributes": {"checked": n}}
    if n % 2 == 0:
        return {"put": f"new-{script}-{n}", "object": {"type": "Road"}}
    return {"delete": f"new-{script}-{n - 1}"}


edits = [
    {"name": f"script-{n}", "commands": [command(n, k) for k in range(commands - 1)] + ["commit"]}
    for n in range(scripts)
]
json.dump(edits, sys.stdout, separators=(",", ":"))
