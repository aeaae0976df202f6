#!/usr/bin/env python3
"""Runs cityed as a user does, and compares its status, its output and its standard error, byte by byte.

    python3 testing/statuses.py PROGRAM

PROGRAM is a built cityed. Prints how many calls were made, and ends at the first other answer with status 1.
"""

import itertools
import os
import pty
import subprocess
import sys
import tempfile

from samples import sample

LIMIT = 60


class Wrong(Exception):
    """The program answered something else than it should."""


def model(objects, vertices="[]"):
    return (
        f'{{"CityObjects":{objects},"transform":{{"scale":[1,1,1],"translate":[0,0,0]}},'
        f'"type":"CityJSON","version":"2.0","vertices":{vertices}}}'
    )


DOCUMENT = model('{"f":{"type":"LandUse"}}')
SCRIPTS = (
    '[{"name":"a","commands":[{"read":"f"},{"put":"g","object":{"type":"Road","attributes":{"lanes":2}}},'
    '{"read":"h"},"commit"]},'
    '{"name":"b","commands":[{"put":"f","object":{"type":"LandUse","attributes":{"use":"park"}}},"abort"]}]'
)
LINES = [
    '{"name":"a","outcome":"committed","replies":[{"found":{"object":{"type":"LandUse"},"vertices":[]}},'
    '"added","absent"],"script":0,"since":',
    '{"name":"b","outcome":"aborted","replies":["replaced"],"script":1,"since":',
]
LEFT = model('{"f":{"type":"LandUse"},"g":{"attributes":{"lanes":2},"type":"Road"}}') + "\n"
REPORT = LINES[0] + "0}\n" + LINES[1] + "1}\n"
OUTPUT = REPORT + LEFT
EMPTY = model("{}")
REFUSED = '[{"name":"s","commands":[{"delete":"z"},"commit"]}]'
REFUSED_LINE = (
    '{"at":0,"cause":"NoObject","id":"z","name":"s","outcome":"refused","replies":[],"script":0,"since":0}\n'
)
CHANGED = (
    '[{"name":"s","commands":[{"expect":"f","attributes":{"use":"park"}},'
    '{"set":"f","attributes":{"use":"lawn"}},"commit"]}]'
)
CHANGED_LINE = (
    '{"at":0,"cause":"Unexpected","id":"f","name":"s","outcome":"refused","replies":[],"script":0,"since":0}\n'
)
UNKNOWN = model('{"b":{"type":"Bulding"}}')
UNKNOWN_LINE = (
    '{"cure":"Use a type of CityJSON 2.0, or GenericCityObject.","fault":"UnknownType","given":"Bulding","id":"b",'
    '"message":"Its type \\"Bulding\\" is no type of CityJSON 2.0.","number":5,"text":"model"}\n'
)
UNKNOWN_TOLD = 'cityed: model: 5 UnknownType "b"\n'
UNKNOWN_EXPLAINED = (
    UNKNOWN_TOLD + "  file: {}\n"
    '  where: object "b"\n'
    '  what: Its type "Bulding" is no type of CityJSON 2.0.\n'
    "  cure: Use a type of CityJSON 2.0, or GenericCityObject.\n"
    "  all faults: {}\n"
)
MISSING = "cityed: cannot read\n  file: MISSING\n  what: No such file or directory (os error 2)\n"
VERSION = "cityed 0.1.0\n"
USAGE = (
    "\n\nUsage: cityed [--decimals] [--workers N] [--watch K] [--output FILE [--wait SECONDS]] [--atomic] [--explain] "
    "[MODEL SCRIPTS]\n"
    "       cityed --report-only [--decimals] [--workers N] [--watch K] [--explain] [MODEL SCRIPTS]\n"
    "       cityed --check [--decimals] [--explain] MODEL [SCRIPTS]\n"
    "       cityed --live [--decimals] [--output FILE [--wait SECONDS]] [--journal FILE] MODEL\n\n"
    "For more information, try '--help'.\n"
)
NO_WORKERS = "error: --workers takes a number from 1 to 16" + USAGE
NO_VIEWERS = "error: --watch takes a number from 0 to 4" + USAGE
NO_SECONDS = "error: --wait takes a number of seconds from 1 to 86400" + USAGE
NO_OUTPUT = "error: --wait takes an --output to wait for" + USAGE
TWO_WAITS = "error: the argument '--wait <SECONDS>' cannot be used multiple times" + USAGE
BESIDE_REPORT = "error: --report-only writes no model, and takes no --{}" + USAGE
NAMED = "error: --output names SCRIPTS\n\nFor more information, try '--help'.\n"
NO_SCRIPTS = "error: a MODEL was given without SCRIPTS" + USAGE
TIP = "\n\n  tip: to pass '-w' as a value, use '-- -w'"
LIKE = "\n\n  tip: a similar argument exists: '--workers'"

# arguments (of which MODEL and SCRIPTS are files), standard input, and the status, the output and standard error
CALLS = [
    ([], DOCUMENT + "\n" + SCRIPTS, 0, OUTPUT, ""),
    (["MODEL", "SCRIPTS"], "", 0, OUTPUT, ""),
    (["--", "MODEL", "SCRIPTS"], "", 0, OUTPUT, ""),
    (["--workers", "1", "--watch", "0", "MODEL", "SCRIPTS"], "", 0, OUTPUT, ""),
    ([], EMPTY + "\n[]", 0, EMPTY + "\n", ""),
    ([], EMPTY + "\n" + REFUSED, 0, REFUSED_LINE + EMPTY + "\n", ""),
    ([], DOCUMENT + "\n" + CHANGED, 0, CHANGED_LINE + DOCUMENT + "\n", ""),
    (["--atomic"], DOCUMENT + "\n" + CHANGED, 3, CHANGED_LINE, ""),
    (["--report-only", "MODEL", "SCRIPTS"], "", 0, REPORT, ""),
    (["--report-only"], DOCUMENT + "\n" + CHANGED, 0, CHANGED_LINE, ""),
    (["--report-only", "--workers", "2", "--watch", "1"], EMPTY + "\n[]", 0, "", "viewer 0: 0\n"),
    (["MODEL", "MISSING", "--report-only"], "", 1, "", "cityed: cannot read\n"),
    (["--report-only", "-o", "NEW", "MODEL", "SCRIPTS"], "", 2, "", BESIDE_REPORT.format("output")),
    (["--report-only", "--atomic", "MODEL", "SCRIPTS"], "", 2, "", BESIDE_REPORT.format("atomic")),
    (["--report-only", "--check", "MODEL"], "", 2, "", "error: --check runs nothing, and takes no --report-only" + USAGE),
    (["--workers", "2", "--watch", "2"], EMPTY + "\n[]", 0, EMPTY + "\n", "viewer 0: 0\nviewer 1: 0\n"),
    ([], '{"type":"CityJSON"\n[]', 1, "", "cityed: model: 2 NotJson\n"),
    ([], EMPTY, 1, "", "cityed: scripts: 2 NotJson\n"),
    ([], EMPTY + "\n{}", 1, "", "cityed: scripts: 4 NotScripts\n"),
    (["--workers", "3"], model('{"p":{"type":"BuildingPart"}}') + "\n[]", 1, "", 'cityed: model: 10 Relations "p"\n'),
    ([], "", 1, "", "cityed: model: 2 NotJson\n"),
    (["MISSING", "SCRIPTS"], "", 1, "", "cityed: cannot read\n"),
    (["MODEL", "MISSING"], "", 1, "", "cityed: cannot read\n"),
    (["FOLDER", "SCRIPTS"], "", 1, "", "cityed: cannot read\n"),
    (["--check", "MODEL", "SCRIPTS"], "", 0, "", ""),
    (["MODEL", "--check"], "", 0, "", ""),
    (["--check", "UNKNOWN", "SCRIPTS"], "", 1, UNKNOWN_LINE, ""),
    (["--check", "--decimals", "UNKNOWN"], "", 1, UNKNOWN_LINE, ""),
    (["--check", "UNKNOWN", "MISSING"], "", 1, "", "cityed: cannot read\n"),
    (["--check", "--explain", "MISSING"], "", 1, "", MISSING),
    (["UNKNOWN", "SCRIPTS"], "", 1, "", UNKNOWN_TOLD),
    (
        ["--explain", "UNKNOWN", "SCRIPTS"],
        "",
        1,
        "",
        UNKNOWN_EXPLAINED.format("UNKNOWN", "cityed --check UNKNOWN SCRIPTS"),
    ),
    (
        ["--explain", "--decimals"],
        UNKNOWN + "\n[]",
        1,
        "",
        UNKNOWN_EXPLAINED.format(
            "standard input, its first line",
            "put the two texts into files, and run cityed --check --decimals MODEL SCRIPTS",
        ),
    ),
    (["--explain", "MISSING", "SCRIPTS"], "", 1, "", MISSING),
    (["--explain", "MODEL", "MISSING"], "", 1, "", MISSING),
    (["--explain", "MODEL", "SCRIPTS"], "", 0, OUTPUT, ""),
    (["--version"], "", 0, VERSION, ""),
    (["-V"], "", 0, VERSION, ""),
    (["--help"], "", 0, sample("help.txt").decode("utf-8"), ""),
    (["-h"], "", 0, sample("help.txt").decode("utf-8"), ""),
    (["MODEL"], "", 2, "", NO_SCRIPTS),
    (["--workers", "2", "MODEL"], "", 2, "", NO_SCRIPTS),
    (["--workers", "0"], "", 2, "", NO_WORKERS),
    (["--workers", "17"], "", 2, "", NO_WORKERS),
    (["--workers", "18446744073709551617"], "", 2, "", NO_WORKERS),
    (["--workers", "x", "MODEL", "SCRIPTS"], "", 2, "", NO_WORKERS),
    (["--workers="], "", 2, "", NO_WORKERS),
    (["-o", "NEW", "--wait", "0", "MODEL", "SCRIPTS"], "", 2, "", NO_SECONDS),
    (["-o", "NEW", "--wait", "86401", "MODEL", "SCRIPTS"], "", 2, "", NO_SECONDS),
    (["-o", "NEW", "--wait", "1.5"], "", 2, "", NO_SECONDS),
    (["--wait="], "", 2, "", NO_SECONDS),
    (["--wait", "x"], "", 2, "", NO_SECONDS),
    (["--wait", "1"], "", 2, "", NO_OUTPUT),
    (["--wait", "86400", "MODEL", "SCRIPTS"], "", 2, "", NO_OUTPUT),
    (["--wait", "1", "--wait", "1", "-o", "NEW"], "", 2, "", TWO_WAITS),
    (["--check", "--wait", "1", "MODEL"], "", 2, "", "error: --check writes no model, and takes no --wait" + USAGE),
    (["--check", "-o", "NEW", "MODEL"], "", 2, "", "error: --check writes no model, and takes no --output" + USAGE),
    (["-o", "SCRIPTS", "MODEL", "SCRIPTS"], "", 2, "", NAMED),
    (["-o", "./SCRIPTS", "--atomic", "MISSING", "SCRIPTS"], "", 2, "", NAMED),
    (["-o", "FOLDER", "MISSING", "SCRIPTS"], "", 1, "", "cityed: cannot write\n"),
    (["-o", "MISSING/NEW", "MISSING", "SCRIPTS"], "", 1, "", "cityed: cannot write\n"),
    (["-o", "/dev/null", "MODEL", "SCRIPTS"], "", 0, REPORT, ""),
    (["-o", "NEW", "--wait", "1", "MODEL", "SCRIPTS"], "", 0, REPORT, ""),
    (["--output=NEW", "--wait=86400"], DOCUMENT + "\n" + SCRIPTS, 0, REPORT, ""),
    (["--watch", "5", "MODEL", "SCRIPTS"], "", 2, "", NO_VIEWERS),
    (["--watch", "5", "MODEL"], "", 2, "", NO_VIEWERS),
    (["MODEL", "SCRIPTS", "x"], "", 2, "", "error: unexpected argument 'x' found" + USAGE),
    (["-w"], "", 2, "", "error: unexpected argument '-w' found" + TIP + USAGE),
    (["--worker", "2"], "", 2, "", "error: unexpected argument '--worker' found" + LIKE + USAGE),
]


def answer(program, folder, arguments, text):
    """Status, output and standard error of a call in a folder that has the files."""
    ran = subprocess.run(
        [program, *arguments], input=text.encode("utf-8"), capture_output=True, cwd=folder, timeout=LIMIT, check=False
    )
    return ran.returncode, ran.stdout, ran.stderr


def each_call(program, folder):
    """Each of the calls answers what stands in its row."""
    for arguments, text, *wanted in CALLS:
        status, output, error = answer(program, folder, arguments, text)
        found = [status, output.decode("utf-8"), error.decode("utf-8")]
        if found != wanted:
            raise Wrong(arguments, found, wanted)
    return len(CALLS)


def two_orders(program, folder):
    """Two workers before a viewer write the two lines in either order, and the viewer has seen one change at last."""
    outputs = [
        first + "0}\n" + second + since + "}\n" + LEFT
        for first, second in itertools.permutations(LINES)
        for since in "01"
    ]
    errors = ["viewer 0: 1\n", "viewer 0: 0 1\n"]
    count = 0
    for arguments in (["--workers", "2", "--watch", "1"], ["--workers", "2", "--watch", "1", "MODEL", "SCRIPTS"]):
        for _ in range(20):
            status, output, error = answer(program, folder, arguments, DOCUMENT + "\n" + SCRIPTS)
            if status != 0 or output.decode("utf-8") not in outputs or error.decode("utf-8") not in errors:
                raise Wrong(arguments, [status, output, error], outputs)
            count += 1
    return count


def no_text(program, folder):
    """An argument that isn't text in UTF-8."""
    ran = subprocess.run([program, b"\xff"], capture_output=True, cwd=folder, timeout=LIMIT, check=False)
    found = (ran.returncode, ran.stdout, ran.stderr)
    if found != (2, b"", b"error: an argument isn't text in UTF-8\n"):
        raise Wrong(["\\xff"], found)
    return 1


def full_device(program, folder):
    """A standard output that takes nothing."""
    with open("/dev/full", "wb") as full:
        text = (DOCUMENT + "\n" + SCRIPTS).encode("utf-8")
        ran = subprocess.run(
            [program], input=text, stdout=full, stderr=subprocess.PIPE, cwd=folder, timeout=LIMIT, check=False
        )
    if (ran.returncode, ran.stderr) != (1, b"cityed: cannot write\n"):
        raise Wrong(["> /dev/full"], (ran.returncode, ran.stderr))
    return 1


def on_terminal(program, folder):
    """A standard error that is a terminal: a fault is explained there, and a check says if there is none."""
    explained = UNKNOWN_EXPLAINED.format("UNKNOWN", "cityed --check UNKNOWN SCRIPTS")
    calls = [(["UNKNOWN", "SCRIPTS"], 1, explained), (["--check", "MODEL", "SCRIPTS"], 0, "cityed: no faults\n")]
    for arguments, status, wanted in calls:
        ours, theirs = pty.openpty()
        try:
            ran = subprocess.run(
                [program, *arguments], stdout=subprocess.PIPE, stderr=theirs, cwd=folder, timeout=LIMIT, check=False
            )
            told = os.read(ours, 65536).decode("utf-8").replace("\r\n", "\n")
        finally:
            os.close(theirs)
            os.close(ours)
        if (ran.returncode, ran.stdout, told) != (status, b"", wanted):
            raise Wrong([*arguments, "2> TERMINAL"], (ran.returncode, ran.stdout, told), wanted)
    return len(calls)


def main():
    if len(sys.argv) != 2:
        print(__doc__)
        return 2
    program = os.path.abspath(sys.argv[1])
    with tempfile.TemporaryDirectory() as folder:
        for name, text in (("MODEL", DOCUMENT), ("SCRIPTS", SCRIPTS), ("UNKNOWN", UNKNOWN)):
            with open(os.path.join(folder, name), "w", encoding="utf-8") as file:
                file.write(text)
        os.mkdir(os.path.join(folder, "FOLDER"))
        try:
            for kind in (each_call, two_orders, no_text, full_device, on_terminal):
                print(f"{kind.__name__}: {kind(program, folder)} as they should be", flush=True)
        except (Wrong, subprocess.TimeoutExpired) as wrong:
            print("WRONG:", *(str(part)[:800] for part in wrong.args))
            return 1
    return 0


if __name__ == "__main__":
    sys.exit(main())
