"""What cityed answers, found a second time, in plain Python, to compare the program with.

It follows docs/FORMAT.md and docs/COMMANDS.md, shares no code with the program, and is made to be read: what the
program does in one pass is done in as many as it takes by json_tree.py, documents.py and commands.py.
"""

from commands import play, read_scripts
from documents import city_text, read_city
from json_tree import Fault, print_tree


def fault_text(part, fault):
    number, name, *fields = fault.args
    return " ".join([f"cityed: {part}: {number} {name}"] + [print_tree(field) for field in fields])


def run(document, scripts, report=None):
    """What the program answers: its output, or the line of its fault.

    `report` is the list of ends that a program told, of which the order, `since` and want of memory are taken over;
    where it is left out the scripts run one after the other, and memory isn't short.
    """
    try:
        frame, city = read_city(document)
    except Fault as fault:
        return None, fault_text("model", fault)
    try:
        listed = read_scripts(scripts)
    except Fault as fault:
        return None, fault_text("scripts", fault)
    lines = []
    for end in report or [{"script": number, "since": number} for number in range(len(listed))]:
        name, commands = listed[end["script"]]
        memory_until = end["at"] if end.get("outcome") == "nomemory" else None
        city, ending, replies = play(city, commands, memory_until)
        lines.append(print_tree({"name": name, "replies": replies, "script": end["script"], "since": end["since"], **ending}))
    lines.append(city_text(frame, city))
    return "".join(line + "\n" for line in lines).encode("utf-8"), None
