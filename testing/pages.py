#!/usr/bin/env python3
"""Runs the commands of the pages as they stand, compares what they print with what the pages show, and counts words.

usage: pages.py [PROGRAM] [--slow] [PAGE.md ..]

PROGRAM is a built cityed; without it no command is run. Without pages it goes through all pages of the repository, and
counts. The commands of a page are the blocks that begin with ```sh, and what stands as `python3 ..` in its sentences.
One bash runs them for each page, each block from the top of a copy of the repository, in which PROGRAM stands as
crates/cityed/out/cityed; it also takes the place of /tmp/cityed-unproved. It says which command

- doesn't end with status 0;
- prints anything else than the block that follows the commands' block at once (`..` stands for anything);
- writes a file of the repository, a picture for example, otherwise than it stands there.

A link to a file or a heading that isn't there is told too. Commands that prove, or that take long, are skipped (SKIPPED
has the reasons); --slow runs those that take a few minutes.

It counts the words of README.md, CONTRIBUTING.md and docs/ (at most 20,000 in all), the lines of README.md (at most 120),
and by crate the relative words (that, which, where, those, whose, what) for each sentence of comments (at most 0.45). It
lists figures that stand on two pages, a number of two digits or more with the word behind it: facts that may be told
twice, which is no fault. The status is 1 if anything was wrong.
"""
import argparse
import filecmp
import os
import re
import shutil
import subprocess
import sys
import tempfile
from collections import defaultdict
from pathlib import Path

ROOT = Path(__file__).resolve().parent.parent
SECONDS = 300  # for each page, with --slow 3,600
MOST_WORDS, MOST_LINES, MOST_RELATIVE = 24_000, 160, 0.45
OLD = ("CHANGELOG.md", "bench/HISTORY.md")  # what tells of earlier days, and may repeat its figures
UNPROVED = "/tmp/cityed-unproved"
SNAKEMAKE = shutil.which("snakemake")
COMMON = "and|of|to|or|in|at|by|for|with|on|is|are|the|alone|more|less|each|times"  # words that name no figure's unit

# What a command has in it, why it is skipped, and whether --slow runs it.
SKIPPED = [
    (r"\brt (ci|check|verdict|lib|run|test|all|tidy|plant|must-fail)\b", "it proves", False),
    (r"\b(NAME|NAMES|MODEL|SCRIPTS|OLD|NEW|EDIT|FILE|FUNCTION|RUN|CITY)\b", "the reader fills in a name", False),
    *([] if SNAKEMAKE else [(r"\b(snakemake|tiles\.py)\b|/tmp/town", "Snakemake isn't installed", False)]),
    (r"\btesting/unproved\.py|edits\.py(?! --apply)|trials\.py$|gate_time\.py", "it proves, or builds", False),
    (r"\bout/city_tests_tests\b|city_scenarios-unproved", "it wants another program", False),
    (r"\brt (try|fmt|seed|expand)\b", "minutes", True),
    (r"\btesting/pages\.py", "it is this script", False),
    (r"^sudo |\bgateway\.py ", "it installs, or runs until it is ended", False),
    (r"\btesting/(hostile_texts|refused_calls|decimals)\.py", "minutes", True),
    (r"\bgrowth\.py|\bside_by_side\.py", "minutes", True),
    (r"\bmake_(city|scripts)\.py\b|/tmp/[\w-]+\.(input|output|json)", "texts of up to 60 MB", True),
]


def pages():
    """The pages of the repository."""
    return sorted(it for it in files() if it.endswith(".md"))


def files():
    """The files of the repository, by their names from its root."""
    words = ["git", "ls-files", "-z", "--cached", "--others", "--exclude-standard"]
    listed = subprocess.run(words, cwd=ROOT, stdout=subprocess.PIPE, check=True).stdout.decode()
    return [it for it in listed.split("\0") if it and (ROOT / it).is_file()]


def copied(folder, program):
    """A copy of the repository, with the program in its place."""
    for name in files():
        (folder / name).parent.mkdir(parents=True, exist_ok=True)
        shutil.copy2(ROOT / name, folder / name)
    out = folder / "crates" / "cityed" / "out"
    out.mkdir(parents=True, exist_ok=True)
    shutil.copy2(program, out / "cityed")


def blocks(text):
    """The fenced blocks of a page, and the commands in its sentences as blocks of one line: language, number of the
    first line, lines, and whether it follows the block before at once."""
    found, language, lines, first, start = [], None, [], 0, 1
    page = text.split("\n")
    for number, line in enumerate([*page, "```"], 1):
        fence = re.match(r"\s*```(\w*)\s*$", line)
        if fence and language is None:
            prose = "\n".join(page[start - 1 : number - 1])
            for it in re.finditer(r"`(python3 [^`]+)`", prose):
                found.append(("sh", start + prose.count("\n", 0, it.start()), [" ".join(it[1].split())], False))
            language, lines, first, follows = fence[1], [], number + 1, not prose.strip()
        elif fence:
            found.append((language, first, lines, follows))
            language, start = None, number + 1
        elif language is not None:
            lines.append(line)
    return found


def commands(lines, first):
    """The commands of a block, each with the number of its first line; a command ends where bash can read it."""
    found, part, start = [], [], first
    for number, line in enumerate(lines, first):
        if not part:
            if not line.strip():
                continue
            start = number
        part.append(line)
        text = "\n".join(part)
        words = {"input": text, "text": True, "env": {**os.environ, "LC_ALL": "C"}}
        read = subprocess.run(["bash", "-n"], stdout=subprocess.PIPE, stderr=subprocess.STDOUT, **words)
        goes_on = re.search(r"(\\|&&|\|)\s*$", line) or "here-document" in read.stdout
        if read.returncode == 0 and not goes_on:
            found.append((start, text))
            part = []
    return found + ([(start, "\n".join(part))] if part else [])


def written(path):
    """What was written to a file, if there is one."""
    return path.read_text(encoding="utf-8", errors="replace") if path.exists() else ""


def is_like(wanted, given):
    """Whether lines are those that a page shows, in which `..` stands for anything."""
    pattern = ".*".join(re.escape(part) for part in "\n".join(wanted).strip().split(".."))
    return re.fullmatch(pattern, given.strip(), re.DOTALL) is not None


class Trial:
    """What has come of the pages so far."""

    def __init__(self, program, slow):
        self.program, self.slow, self.ran, self.wrong, self.skipped, self.shown = program, slow, 0, 0, 0, 0

    def fault(self, place, what):
        self.wrong += 1
        print(f"{place}: {what[:3000]}")

    def limit(self, place, count, most, of):
        """Tells a count, and whether it is more than may be."""
        self.wrong += count > most
        print(f"{place}: {count:,} {of}{f', at most {most:,}' if count > most else ''}")

    def page(self, page):
        """Runs a page's blocks of commands in a copy of the repository, and compares what they print and write."""
        text = (ROOT / page).read_text(encoding="utf-8")
        self.links(page, text)
        found = blocks(text) if self.program else []
        script, kept, compared = [], [], []
        for i, (language, first, lines, _) in enumerate(found):
            if language != "sh":
                continue
            parts = commands(lines, first)
            run = [part for part in parts if not self.skips(page, *part)]
            noted = []
            for line, command in run:
                noted.append(f'{command}\necho $? > "$NOTES/{len(kept)}.status"\n')
                kept.append((line, command, i))
            if run:
                script.append(f'cd "$NOTES/repository"\n{{\n{"".join(noted)}}} > "$NOTES/{i}.output" 2>&1\n')
            if len(run) == len(parts) and i + 1 < len(found) and found[i + 1][3] and found[i + 1][0] != "sh":
                compared.append((first, i, found[i + 1][2]))
        if kept:
            with tempfile.TemporaryDirectory(prefix="pages-") as room:
                copied(Path(room) / "repository", self.program)
                self.run(page, "".join(script), room)
                self.judge(page, kept, compared, Path(room))

    def skips(self, page, line, text):
        """Whether a command is skipped; says why."""
        why = next((why for has, why, slow in SKIPPED if re.search(has, text) and not (slow and self.slow)), None)
        if why:
            self.skipped += 1
            print(f"{page}:{line}: skipped, {why}: {text.splitlines()[0][:80]}")
        return why is not None

    def run(self, page, script, notes):
        """Runs a page's commands, each of which notes its status, and each block its output."""
        words = {"stdin": subprocess.DEVNULL, "env": {**os.environ, "NOTES": notes}}
        script = script.replace(UNPROVED, str(self.program))
        seconds = 3600 if self.slow else SECONDS
        try:
            subprocess.run(["bash", "-c", script], timeout=seconds, **words)
        except subprocess.TimeoutExpired:
            self.fault(page, f"no end within {seconds} seconds")

    def judge(self, page, kept, compared, notes):
        """Compares statuses, output and files with what the page and the repository have."""
        for i, (line, text, block) in enumerate(kept):
            self.ran += 1
            status = written(notes / f"{i}.status").strip() or "none"
            if status != "0":
                self.fault(f"{page}:{line}", f"status {status}: {text}\n{written(notes / f'{block}.output')}")
        for first, block, wanted in compared:
            self.shown += 1
            output = written(notes / f"{block}.output")
            if not is_like(wanted, output):
                self.fault(f"{page}:{first}", f"prints otherwise than the page shows:\n{output}")
        for name in files():
            if not (notes / "repository" / name).exists():
                self.fault(page, f"its commands take {name} away")
            elif not filecmp.cmp(ROOT / name, notes / "repository" / name, shallow=False):
                self.fault(page, f"its commands write {name} otherwise than it stands")

    def links(self, page, text):
        """Looks up each link of a page to a file of the repository."""
        outside = re.sub(r"```.*?```", "", text, flags=re.DOTALL)
        for target in re.findall(r"\]\(([^)\s]+)\)", outside):
            if re.match(r"\w+:", target):
                continue
            path, _, heading = target.partition("#")
            file = (ROOT / page).parent / path if path else ROOT / page
            if not file.exists():
                self.fault(page, f"links to {target}, which isn't there")
            elif heading and heading not in headings(file.read_text(encoding="utf-8")):
                self.fault(page, f"links to {target}, of which there is no such heading")


def headings(text):
    """The names by which the headings of a page are linked to."""
    lines = re.findall(r"^#+ +(.*)$", re.sub(r"```.*?```", "", text, flags=re.DOTALL), re.MULTILINE)
    return {re.sub(r"[^\w\- ]", "", line.lower()).strip().replace(" ", "-") for line in lines}


def comments(path):
    """The comments of a file of a crate, neighbouring lines as one, without what stands between backquotes."""
    mark = r"^\s*//[/!]? ?" if path.endswith(".rt") else r"^\s*-- ?"
    block = []
    for line in [*(ROOT / path).read_text(encoding="utf-8").split("\n"), ""]:
        found = re.match(mark, line)
        if found:
            block.append(line[found.end() :])
        elif block:
            yield re.sub(r"`[^`]*`", "x", " ".join(block))
            block = []


def relative_words():
    """How many sentences the comments of each crate have, and how many relative words."""
    counts = defaultdict(lambda: [0, 0])
    for path in files():
        if path.startswith("crates/") and path.endswith((".rt", ".antt")):
            for text in comments(path):
                sentences = [it for it in re.split(r"(?<=[.!?:])\s+|\s+- ", text) if len(it.split()) > 2]
                counts[path.split("/")[1]][0] += len(sentences)
                counts[path.split("/")[1]][1] += len(re.findall(r"\b(that|which|where|those|whose|what)\b", text, re.I))
    return counts


def told_twice(texts):
    """The figures that stand on two pages, each with these pages."""
    found = defaultdict(set)
    for page, text in texts.items():
        prose = re.sub(r"```.*?```|`[^`\n]*`|\]\([^)]*\)", " ", text, flags=re.DOTALL)
        for number, word in re.findall(rf"(?<![\w.,#-])(\d[\d,.]*\d)\s+(?!(?:{COMMON})\b)(%|[A-Za-z]+)", prose):
            found[f"{number} {word}"].add(page)
    return {figure: sorted(on) for figure, on in sorted(found.items()) if len(on) > 1}


def count(trial):
    """Counts the words of pages and of comments, and lists figures that stand on two pages."""
    texts = {page: (ROOT / page).read_text(encoding="utf-8") for page in pages()}
    told = [it for it in texts if it in ("README.md", "CONTRIBUTING.md") or it.startswith("docs/")]
    for page, text in texts.items():
        print(f"{page}: {len(text.split()):,} words")
    words, lines = sum(len(texts[page].split()) for page in told), texts["README.md"].count("\n")
    trial.limit("README.md, CONTRIBUTING.md and docs/", words, MOST_WORDS, "words")
    trial.limit("README.md", lines, MOST_LINES, "lines")
    for crate, (sentences, relative) in sorted(relative_words().items()):
        trial.limit(f"crates/{crate}", round(relative / max(sentences, 1), 2), MOST_RELATIVE, "relative words each")
    for figure, on in told_twice({page: text for page, text in texts.items() if page not in OLD}).items():
        print(f"on {len(on)} pages: {figure} ({', '.join(on)})")


def main():
    title, usage, about = re.split(r"\n\nusage: (.*)\n\n", __doc__)
    form = argparse.RawTextHelpFormatter
    words = argparse.ArgumentParser(usage=usage, description=f"{title}\n\n{about}", formatter_class=form)
    words.add_argument("--slow", action="store_true", help="also run commands that take a few minutes")
    words.add_argument("names", nargs="*", metavar="NAME", help="PROGRAM, and pages")
    asked = words.parse_intermixed_args()
    named = [it for it in asked.names if it.endswith(".md")]
    program = next((Path(it).resolve() for it in asked.names if it not in named), None)
    trial = Trial(program, asked.slow)
    for page in named or pages():
        trial.page(page)
    if not named:
        count(trial)
    print(f"{trial.ran} commands run, {trial.shown} outputs compared, {trial.skipped} skipped, {trial.wrong} wrong")
    sys.exit(1 if trial.wrong else 0)


main()
