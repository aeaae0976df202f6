#!/usr/bin/env python3
"""Runs `cityed --check` on texts that are changed, random or broken, and compares its lines with diagnostics.py.

    python3 testing/checked_texts.py PROGRAM [--seed N] [--only KIND] [--runs N]

PROGRAM is a built cityed. Each text is checked without --decimals and with it. Prints one line for each kind with how
many were tried, and ends at the first difference with status 1, the two texts in files and what each side said.
"""

import argparse
import itertools
import json
import os
import random
import subprocess
import sys
import tempfile
from concurrent.futures import ThreadPoolExecutor

import changed_texts
import command_texts
import hostile_texts
import known_diagnostics
import random_runs
from hostile_texts import Different, Program, tell
from json_tree import print_tree
from samples import EMPTY
from script_diagnostics import check

HERE = os.path.dirname(os.path.abspath(__file__))
sys.path.insert(0, os.path.join(HERE, "..", "bench"))
import growth  # noqa: E402

# of the replaced bytes one in so many is tried
REPLACED = 16
MOST_TIMES = 6
MOST_OF_A_REFUSAL = 3
# what a fault names in its line on standard error, in this order
NAMES = {"NotCityJson": ["member"], "Unsupported": ["id", "name"], "BadScript": ["script"], "BadCommand": ["script", "command"]}


def agree(program, document, scripts, decimals, wanted):
    """The program's lines are the wanted ones, and a run tells the first of them."""
    options = ["--decimals"] if decimals else []
    answer = program.answer(document, scripts, "--check", *options)
    if not tells(answer, wanted):
        raise Different(document, scripts, answer, [decimals, wanted])
    refused = run_refused(program, document, scripts, options)
    faults = list(filter(is_fault, wanted))
    if refused != (fault_line(faults[0]) if faults else None):
        raise Different(document, scripts, refused, faults[:1])


def tells(answer, wanted):
    """Whether a check has answered with the wanted lines, and nothing else."""
    status, output, error = answer
    if (status, error) != (1 if any(map(is_fault, wanted)) else 0, b"") or not is_of_lines(output):
        return False
    lines = [json.loads(each) for each in output.splitlines()]
    return len(lines) == len(wanted) and all(map(is_told, lines, wanted))


def is_fault(line):
    """Whether a line tells a fault, not a warning."""
    return "number" in line


def is_of_lines(output):
    """Whether each line is a compact object with its members in order, and ends in a newline."""
    text = output.decode("utf-8")
    return all(print_tree(json.loads(each)) + "\n" == each for each in text.splitlines(keepends=True))


def is_told(found, wanted):
    """Whether a line tells what is wanted, with a message and a cure, each a sentence."""
    message, cure = found.pop("message", None), found.pop("cure", None)
    for sentence in (message, cure):
        if not isinstance(sentence, str) or not sentence.endswith(".") or not sentence[0].isupper() or "\n" in sentence:
            return False
    if found.get("fault") == "NotJson":
        found, wanted = without_place(found, "line" in wanted), without_place(wanted, "line" in wanted)
    return found == wanted


def without_place(told, may_have_place):
    """A line about a text that isn't JSON, without line, column and reason where these are as they may be."""
    rest = dict(told)
    reason = rest.pop("reason", "none")
    if reason is not None and not (isinstance(reason, str) and reason and " at line " not in reason):
        return None
    if may_have_place and ("line" in rest) == ("column" in rest):
        place = [rest.pop("line", None), rest.pop("column", None)]
        if not all(number is None or isinstance(number, int) and number >= 0 for number in place):
            return None
    return {**rest, "has_reason": "reason" in told}


def run_refused(program, document, scripts, options):
    """The line that a run of the same texts tells; None where it takes them."""
    status, output, error = program.answer(document, scripts, *options)
    if status == 0 and error == b"":
        return None
    return error.decode("utf-8") if (status, output) == (1, b"") else f"status {status}"


def fault_line(told):
    """The line on standard error for a fault."""
    fault = told["fault"]
    names = NAMES.get(fault) or [name for name in ("id", "script", "command") if name in told and fault != "TooMany"]
    words = [f"cityed: {told['text']}: {told['number']} {fault}", *(print_tree(told[name]) for name in names)]
    return " ".join(words) + "\n"


# ---- kinds: each gives pairs of a document and scripts


def replaced_bytes(choose, count):
    """A sample of the replaced bytes."""
    return (pair for pair in changed_texts.replaced_bytes() if choose.randrange(REPLACED) == 0)


def random_texts(choose, count):
    """Random documents and scripts that are broken."""
    return (random_runs.texts(choose, broken=True) for _ in range(count))


def turned_round(choose, count):
    """A document as scripts, and scripts as a document."""
    for document, scripts in itertools.islice(random_texts(choose, count), count // 10):
        yield scripts, document


def broken_beginnings(choose, count):
    """Texts that begin as no JSON text does, or that aren't UTF-8."""
    starts = [b"\xef\xbb\xbf", b"\xfe\xff", b"\xff\xfe", b"\x00", b"\xef\xbb", b"\xff", b"\xc3("]
    for text in (EMPTY, b"[]"):
        texts = [start + text for start in starts] + [text + start for start in starts]
        texts += [text.decode("utf-8").encode(name) for name in ("utf-16", "utf-16-le", "utf-16-be", "utf-32")]
        texts += [b"\r\n" * count + text[:at] + b"\xff" + text[at:] for count in range(3) for at in range(len(text))]
        for each in texts:
            yield (each, b"[]") if text is EMPTY else (EMPTY, each)


def listed(kind):
    """A kind that makes no choices."""
    made = lambda choose, count: kind()
    made.__name__ = kind.__name__
    return made


KINDS = [listed(changed_texts.removed_bytes), replaced_bytes, listed(changed_texts.changed_values)]
KINDS += [listed(changed_texts.members), listed(command_texts.several_faults), listed(command_texts.forms)]
KINDS += [listed(hostile_texts.json_table), broken_beginnings, random_texts, turned_round]


def try_kind(program, kind, choose, count):
    def compare(pair):
        for decimals in (False, True):
            agree(program, *pair, decimals, check(*pair, decimals))
        return 2

    with ThreadPoolExecutor(4) as pool:
        return f"{sum(pool.map(compare, kind(choose, count)))} agree"


def by_hand(program, choose, count):
    """Texts whose lines were written by hand."""
    cases = list(known_diagnostics.cases())
    for case in cases:
        agree(program, *case)
    return f"{len(cases)} agree"


# ---- calls: other files, and other words


def models_alone(program, choose, count):
    """The texts whose lines were written by hand, without SCRIPTS."""
    cases = list(known_diagnostics.cases())
    name = os.path.join(program.folder, "alone")
    for document, _, decimals, _ in cases:
        with open(name, "wb") as file:
            file.write(document)
        wanted = check(document, None, decimals)
        ran = program.run(document, b"", "--check", *(["--decimals"] if decimals else []), name)
        if not tells((ran.returncode, ran.stdout, ran.stderr), wanted):
            raise Different(document, b"", ran, wanted)
    return f"{len(cases)} agree"


def other_words(program, choose, count):
    """Words that don't go with --check, and files that can't be read."""
    name = os.path.join(program.folder, "empty")
    with open(name, "wb") as file:
        file.write(EMPTY)
    refused = [["--workers", "2"], ["--watch", "1"], ["--output", name], ["--atomic"]]
    calls = [([*words, name], 2) for words in refused] + [([], 2), ([name, name, name], 2)]
    calls += [([name + "x"], 1), ([name, name + "x"], 1), ([program.folder], 1), ([name], 0), (["--explain", name], 0)]
    for words, status in calls:
        ran = program.run(EMPTY, b"", "--check", *words, stdin=subprocess.DEVNULL)
        alone = {0: ran.stderr == b"", 1: ran.stderr.startswith(b"cityed: cannot read\n"), 2: ran.stderr != b""}
        if (ran.returncode, ran.stdout) != (status, b"") or not alone[status]:
            raise Different(EMPTY, b"", [words, ran], f"status {status}, no line")
    return f"{len(calls)} calls end as they should"


# ---- how long it takes


def times(program, choose, count):
    """Four times the text takes at most six times the processor time, however many faults there are."""
    told = []
    for kind, size in growth.CHECKED.items():
        short, long = (least_time(program, kind(number), "--check") for number in (size, 4 * size))
        if long > MOST_TIMES * short:
            raise Different(b"", b"", f"{kind.__name__}: {short:.3f} s, {long:.3f} s", f"{MOST_TIMES} times at most")
        told.append(f"{kind.__name__} {long / short:.1f}")
    texts = growth.open_shells(10_000)
    refused, checked = least_time(program, texts), least_time(program, texts, "--check")
    if checked > MOST_OF_A_REFUSAL * refused:
        raise Different(b"", b"", f"10,000 open shells: {refused:.3f} s, {checked:.3f} s", f"{MOST_OF_A_REFUSAL} times at most")
    return f"{', '.join(told)} times; 10,000 open shells are told in {checked / refused:.1f} times a refusal's time"


def least_time(program, texts, *options):
    with tempfile.TemporaryDirectory() as folder:
        names, _ = growth.written(*texts, folder)
        return growth.processor_time([program.path, *options, *names])


def main():
    asked = argparse.ArgumentParser(description=__doc__, formatter_class=argparse.RawDescriptionHelpFormatter)
    asked.add_argument("program")
    asked.add_argument("--seed", type=int, default=1)
    asked.add_argument("--only")
    asked.add_argument("--runs", type=int, default=1000)
    asked = asked.parse_args()
    with tempfile.TemporaryDirectory() as folder:
        program = Program(os.path.abspath(asked.program), folder)
        tries = [(kind.__name__, lambda *given, kind=kind: try_kind(program, kind, *given)) for kind in KINDS]
        tries += [(each.__name__, lambda *given, each=each: each(program, *given)) for each in (by_hand, models_alone, other_words, times)]
        for name, attempt in tries:
            if asked.only in (None, name):
                try:
                    print(f"{name}: {attempt(random.Random(f'{asked.seed} {name}'), asked.runs)}", flush=True)
                except Different as different:
                    print(name)
                    tell(different)
                    return 1
    return 0


if __name__ == "__main__":
    sys.exit(main())
