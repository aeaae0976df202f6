"""What `cityed --check` tells of a text of scripts, found a second time, in plain Python: see diagnostics.py."""

from commands import MOST_COMMANDS, MOST_SCRIPTS
from diagnostics import bad_vertex, check_document, equal_neighbours, line, open_shell, read, surfaces_of, tree_faults
from json_tree import are_triples

ENDS = ("commit", "abort")
# the members of each command, in the order in which an object is asked which command it names
MEMBERS = {
    "read": ["read"],
    "put": ["put", "object"],
    "add": ["add", "object"],
    "set": ["set", "attributes"],
    "unset": ["unset", "attributes"],
    "reshape": ["reshape", "geometry"],
    "expect": ["expect", "attributes"],
    "delete": ["delete"],
    "attach": ["attach", "parent"],
    "detach": ["detach", "parent"],
    "mark": ["mark"],
    "back": ["back"],
}
NAMES = sorted([*MEMBERS, *ENDS])
# how many members of a command are compared with the names
MOST_MEMBERS = 16
RULES = {5: "type", 6: "unsupported", 7: "geometry"}


def check(document, scripts, decimals=False):
    """All lines of a call; `scripts` is None where no SCRIPTS are given."""
    lines = check_document(document, decimals)
    return lines if scripts is None else lines + check_scripts(scripts, decimals)


def check_scripts(text, decimals=False):
    """The lines of a text of scripts."""
    tree, told = read("scripts", text, decimals)
    if told is not None:
        return [told]
    if not isinstance(tree, list):
        form = "model" if isinstance(tree, dict) and tree.get("type") == "CityJSON" else None
        return [line("scripts", 4, "NotScripts", form=form)]
    lines, good = [], []
    for number, script in enumerate(tree):
        details = bad_script(script)
        if details:
            lines.append(line("scripts", 5, "BadScript", script=number, **details))
        else:
            good.append((number, script))
    lines += too_many(tree, good)
    misplaced = []
    for number, script in good:
        for place, command in enumerate(script["commands"]):
            details = bad_command(command)
            if details:
                lines.append(line("scripts", 7, "BadCommand", script=number, command=place, **details))
            else:
                details = bad_vertex(shaped_in(command), len(script.get("vertices", [])))
                if details:
                    misplaced.append(line("scripts", 8, "BadVertex", script=number, command=place, **details))
    return lines + misplaced or warnings(tree)


def warnings(scripts):
    """The lines of commands that are refused whatever the model holds, in scripts without a fault."""
    lines = []
    for number, script in enumerate(scripts):
        for place, command in enumerate(script["commands"]):
            shaped = shaped_in(command)
            for name, find in (("ShortRing", short_ring), ("SameTwice", same_twice), ("OpenShell", open_shell)):
                details = find(shaped, script.get("vertices", []))
                if details:
                    where = {"script": number, "command": place, "object": shaped_id(command)}
                    there = {key: value for key, value in details.items() if value is not None}
                    lines.append({"text": "scripts", "warning": name, **where, **there})
                    break
    return lines


def shaped_id(command):
    """The id of a put, an add or a reshape."""
    return next(command[name] for name in ("put", "add", "reshape") if name in command)


def short_ring(obj, vertices):
    for place, rings in surfaces_of(obj):
        if not rings:
            return {**place, "rule": "no ring"}
        for ring, positions in enumerate(rings):
            if len(positions) < 3:
                return {**place, "ring": ring, "rule": "short ring", "points": len(positions)}
    return None


def same_twice(obj, vertices):
    for place, rings in surfaces_of(obj):
        for ring, positions in enumerate(rings):
            equal = equal_neighbours(positions, vertices)
            if equal:
                return {**place, "ring": ring, **equal}
    return None


def bad_script(script):
    """The first rule on scripts that an item doesn't meet."""
    if not isinstance(script, dict):
        return {"rule": "no object"}
    if not isinstance(script.get("name"), str):
        return {"rule": "name"}
    commands = script.get("commands")
    if not isinstance(commands, list):
        return {"rule": "commands"}
    first_end = next((at for at, command in enumerate(commands) if command in ENDS), None)
    if first_end is None:
        return {"rule": "no end"}
    if first_end != len(commands) - 1:
        return {"rule": "end not last", "command": first_end}
    if not are_triples(script.get("vertices", [])):
        return {"rule": "vertices"}
    others = set(script) - {"name", "commands", "vertices"}
    return {"rule": "member", "member": min(others)} if others else None


def too_many(items, good):
    if len(items) > MOST_SCRIPTS:
        return [line("scripts", 6, "TooMany", scripts=len(items))]
    for number, script in good:
        if len(script["commands"]) > MOST_COMMANDS:
            return [line("scripts", 6, "TooMany", script=number, commands=len(script["commands"]))]
    return []


def bad_command(command):
    """The first rule on commands that this one doesn't meet."""
    if isinstance(command, str):
        return None if command in ENDS else no_command(command)
    if not isinstance(command, dict):
        return {"rule": "no command"}
    name = next((name for name in MEMBERS if name in command), None)
    if name is None:
        return nameless(command)
    for member in MEMBERS[name]:
        if member not in command:
            return {"rule": "missing", "member": member}
    others = set(command) - set(MEMBERS[name])
    if others:
        return {"rule": "member", "member": min(others)}
    for member in MEMBERS[name]:
        if member not in GIVEN and not isinstance(command[member], str):
            return {"rule": "no text", "member": member}
    return GIVEN.get(MEMBERS[name][-1], lambda name, given: None)(name, command[MEMBERS[name][-1]])


def no_command(given):
    return {"rule": "no command", "given": given, "nearest": None if given is None else nearest(given)}


def nameless(command):
    """What is told of an object that names no command: its member nearest to a name, or else its first one."""
    near = [(found[0], member) for member in sorted(command)[:MOST_MEMBERS] if (found := near_name(member))]
    return no_command(min(near)[1] if near else min(command, default=None))


def shaped_in(command):
    """What has the geometries that a command gives."""
    return {} if isinstance(command, str) else command.get("object", command)


def bad_object(name, obj):
    """The first rule on the object of a put or an add that this one doesn't meet."""
    if not isinstance(obj, dict):
        return {"rule": "no object"}
    for member in ("parents", "children"):
        if member in obj:
            return {"rule": "relations", "member": member}
    for number, _, details in tree_faults(obj, 0):
        if number in RULES:
            return {"rule": RULES[number], **details}
    return None


def bad_attributes(name, given):
    """What is wrong with the attributes of a command: an unset has their names, the others their values too."""
    if isinstance(given, dict if name != "unset" else list):
        other = next((at for at, item in enumerate(given) if not isinstance(item, str)), None)
        return None if other is None else {"rule": "attributes", "item": other}
    return {"rule": "attributes"}


def bad_geometries(name, given):
    return bad_object(name, {"type": "Road", "geometry": given})


# what is wrong with a member that isn't a text
GIVEN = {"object": bad_object, "attributes": bad_attributes, "geometry": bad_geometries}


def nearest(given):
    """The name of a command that this may be meant for, or None."""
    found = near_name(given)
    return found and found[1]


def near_name(given):
    """How far a word is from the nearest name of a command, and that name; or None."""
    if len(given) > max(map(len, NAMES)) + 2:
        return None
    distance, name = min((edits(given, name), name) for name in NAMES)
    return (distance, name) if distance <= 2 and distance < len(given) else None


def edits(one, other):
    """How many letters have to be put in, taken out, changed, or swapped with the next: then the texts are one."""
    rows = [list(range(len(other) + 1))]
    for at, letter in enumerate(one, 1):
        row = [at]
        for place, wanted in enumerate(other, 1):
            row.append(min(rows[-1][place] + 1, row[-1] + 1, rows[-1][place - 1] + (letter != wanted)))
            if at > 1 and place > 1 and (letter, one[at - 2]) == (other[place - 2], wanted):
                row[-1] = min(row[-1], rows[-2][place - 2] + 1)
        rows.append(row)
    return rows[-1][-1]
