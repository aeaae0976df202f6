#!/usr/bin/env python3
"""Runs `cityed --decimals` on texts with numbers of any form, and compares values whose numbers are their texts.

    python3 testing/decimals.py PROGRAM [--seed N] [--only KIND] [--texts N]

PROGRAM is a built cityed. Prints one line for each kind with how many were tried, and ends at the first difference
with status 1, the two texts in files and what each side said. Python 3 alone.
"""

import argparse
import os
import random
import subprocess
import sys
import tempfile
from concurrent.futures import ThreadPoolExecutor

import json_texts
import json_tree
import random_runs
from number_texts import answer_of, encoded_top, text_of, value_of
from random_numbers import edit_scripts, model, spelt_text, value
from smallest_changes import changes_of

SECONDS = 120
EMPTY = (
    b'{"CityObjects":{},"transform":{"scale":[1,1,1],"translate":[0,0,0]},'
    b'"type":"CityJSON","version":"2.0","vertices":[]}'
)
ATTRIBUTES = [b"1.5", b"-0", b"7", b"[1.5]", b"[7]", b"[[1.5]]", b"[[[1.5]]]", b"[]", b"[[]]", b'["a"]', b'[["a"]]']
ATTRIBUTES += [b'[{"#":"1.5"}]', b'{"#":"1.5"}', b'[{"#":["1.5"]}]', b'{"#":["x"]}', b'{"#":1.5}', b"{}", b"[{}]"]
ATTRIBUTES += [b'["a",1.5]', b'[1.5,"a"]', b"[1.5,2.5]", b'["1.5"]', b'"1.5"', b"null", b"[null]", b"true", b"[true]"]
WAYS = [(), (), ("--workers", "4"), ("--workers", "2", "--watch", "1")]


class Different(Exception):
    """The program gives another answer than the one that is wanted."""


class Program:
    """A built cityed, called with files."""

    def __init__(self, path, folder):
        self.path, self.folder = os.path.abspath(path), folder

    def answer(self, document, scripts, *options):
        """Returns status, output and error text."""
        with tempfile.TemporaryDirectory(dir=self.folder) as room:
            names = [os.path.join(room, name) for name in ("model", "scripts")]
            for name, text in zip(names, (document, scripts)):
                with open(name, "wb") as file:
                    file.write(text)
            words = [self.path, *options, *names]
            try:
                ran = subprocess.run(words, stdout=subprocess.PIPE, stderr=subprocess.PIPE, timeout=SECONDS)
            except subprocess.TimeoutExpired:
                raise Different(document, scripts, "nothing", f"an answer within {SECONDS} s") from None
        return ran.returncode, ran.stdout, ran.stderr

    def refused(self, document, scripts, fault, *options):
        """The program refuses the texts with this fault, and writes nothing."""
        line, answer = f"cityed: {fault}\n".encode("utf-8"), self.answer(document, scripts, *options)
        if answer != (1, b"", line):
            raise Different(document, scripts, answer, line)
        return 1

    def taken(self, document, scripts, fault):
        """The program gives the wanted lines, where there is no fault."""
        if fault:
            return self.refused(document, scripts, fault, "--decimals")
        return bool(self.edited(document, scripts))

    def edited(self, document, scripts, *options):
        """The program's lines as values, which are those that are wanted."""
        status, output, error = self.answer(document, scripts, "--decimals", *options)
        if status != 0:
            raise Different(document, scripts, error, "status 0")
        lines, listed = output.split(b"\n"), value_of(scripts)
        try:
            got = [value_of(line) for line in lines[:-1]]
            order = [(int(line.get("script").text), int(line.get("since").text)) for line in got[:-1]]
        except (AttributeError, ValueError):
            raise Different(document, scripts, output, "a report and a model") from None
        if sorted(number for number, _ in order) != list(range(len(listed))):
            raise Different(document, scripts, output, "each script once")
        wanted = answer_of(value_of(document), listed, order)
        if got != wanted:
            raise Different(document, scripts, output, "\n".join(map(text_of, wanted)))
        if output.decode("utf-8") != "".join(text_of(each) + "\n" for each in got):
            raise Different(document, scripts, output, "compact lines")
        return lines[:-1]


def with_more(inner):
    """A model that keeps the text of a value."""
    return EMPTY.replace(b'"transform"', b'"more":' + inner + b',"transform"')


def with_puts(texts):
    """Scripts, each of which puts the text of a value, reads it, and goes back behind it or not."""
    puts = (
        b'{"name":"%d","commands":[{"mark":"m"},{"put":"#","object":{"type":"Road","#":%s}},{"read":"#"},%s"commit"]}'
        % (number, text, (b"", b'{"back":"m"},{"read":"#"},')[number % 2])
        for number, text in enumerate(texts)
    )
    return b"[" + b",".join(puts) + b"]"


# ---- kinds: each gives tries, which answer how many they were


def random_texts(program, choose, count):
    """Random JSON, kept at the top and in objects of the model, and put and read by scripts: twenty texts a run."""
    for _ in range(count // 20):
        texts = [spelt_text(choose, value(choose)).encode("utf-8") for _ in range(20)]
        objects = b",".join(b'"%d":{"type":"Road","more":%s}' % each for each in enumerate(texts[1:10]))
        document = with_more(texts[0]).replace(b'"CityObjects":{', b'"CityObjects":{' + objects)
        scripts, way = with_puts(texts[10:]), choose.choice(WAYS)
        yield lambda given=(document, scripts, *way): 20 * bool(program.edited(*given))


def random_models(program, choose, count):
    """Random models with decimals at every place, and no scripts."""
    for _ in range(count // 10):
        document = spelt_text(choose, model(choose)).encode("utf-8")
        yield lambda document=document: bool(program.edited(document, b"[]"))


def written_again(program, choose, count):
    """What was written of a random model is written again as the same bytes."""
    for _ in range(count // 40):
        document = spelt_text(choose, model(choose)).encode("utf-8")

        def twice(document=document):
            (line,) = program.edited(document, b"[]")
            if program.edited(line, b"[]") != [line]:
                raise Different(document, b"[]", line, "the same line")
            return 1

        yield twice


def random_edits(program, choose, count):
    """Random scripts over random models: objects are put, read, marked and brought back, by one to four workers."""
    for _ in range(count // 10):
        city = model(choose)
        document, scripts = (spelt_text(choose, made).encode("utf-8") for made in (city, edit_scripts(choose, city)))
        yield lambda given=(document, scripts, *choose.choice(WAYS)): bool(program.edited(*given))


def whole_texts(program, choose, count):
    """Texts of whole numbers, half of them broken: with the option the answer is the same, byte for byte."""
    for _ in range(count // 10):
        document, scripts = random_runs.texts(choose, choose.random() < 0.5)

        def the_same(document=document, scripts=scripts):
            without, given = (program.answer(document, scripts, *options) for options in ((), ("--decimals",)))
            if without != given:
                raise Different(document, scripts, given, without)
            return 1

        yield the_same


def json_table(program, choose, count):
    """Texts by RFC 8259's word, kept in a model and put by a script: refused exactly where they are invalid."""
    for verdict, text in json_texts.texts():

        def tried(valid=verdict != "invalid", text=text):
            if valid:
                program.edited(with_more(text), b"[]")
                program.edited(EMPTY, with_puts([text, text]))
            else:
                program.refused(with_more(text), b"[]", "model: 2 NotJson", "--decimals")
                program.refused(EMPTY, with_puts([text]), "scripts: 2 NotJson", "--decimals")
            return 2

        yield tried


def named_faults(program, choose, count):
    """Numbers that the format wants whole, and texts without the option."""
    flat = b'{"type":"Road","geometry":[{"type":"MultiSurface","lod":"1","boundaries":[[[0,1,2]]]}]}'
    city = EMPTY.replace(b"{}", b'{"a":' + flat + b"}").replace(b"[]}", b"[[0,0,0],[1,0,0],[0,1,0]]}")
    models = [
        (city, b"[0,1,0]", b"[0,1.0,0]", '4 NotCityJson "vertices"'),
        (city, b"[0,1,0]", b"[0,9223372036854775808,0]", '4 NotCityJson "vertices"'),
        (city, b"[[[0,1,2]]]", b"[[[0,1,2.0]]]", '7 BadGeometry "a"'),
        (city, b"[[[0,1,2]]]", b"[[[-0,1,2]]]", '7 BadGeometry "a"'),
        (city, b'"lod":"1"', b'"lod":1.2', '7 BadGeometry "a"'),
        (city, b"[1,1,1]", b"[1,0.001]", '4 NotCityJson "transform"'),
        (city, b"[1,1,1]", b'[1,1,"0.001"]', '4 NotCityJson "transform"'),
        (city, b'"2.0"', b"2.0", '4 NotCityJson "version"'),
        (city, b'{"a":', b'{"a":1,"b":', '4 NotCityJson "CityObjects"'),
        (city, b'{"a":', b'{"a":1.5,"b":', '5 UnknownType "a"'),
        (city, b'"Road"', b"1e3", '5 UnknownType "a"'),
    ]
    for text, old, new, fault in models:
        changed = text.replace(old, new)
        yield lambda given=(changed, b"[]", f"model: {fault}"): program.refused(*given, "--decimals")
    put = b'[{"name":"s","vertices":[[0,0,0],[1,0,0],[0,1,0]],"commands":[{"put":"a","object":%s},"commit"]}]' % flat
    scripts = [
        (b"[0,1,0]", b"[0,1.5,0]", "5 BadScript 0"),
        (b'"s"', b"1.5", "5 BadScript 0"),
        (b"[[[0,1,2]]]", b"[[[0,1,2e0]]]", "7 BadCommand 0 0"),
        (b'"lod":"1"', b'"lod":2.2', "7 BadCommand 0 0"),
        (b'"put":"a"', b'"put":0.5', "7 BadCommand 0 0"),
    ]
    for old, new, fault in scripts:
        changed = put.replace(old, new)
        yield lambda given=(EMPTY, changed, f"scripts: {fault}"): program.refused(*given, "--decimals")
    for number in (b"0.5", b"-0", b"1e3", b"9223372036854775808"):
        yield lambda given=(with_more(number), b"[]", "model: 3 NotWhole"): program.refused(*given)
        yield lambda given=(EMPTY, with_puts([number]), "scripts: 3 NotWhole"): program.refused(*given)


def named_attributes(program, choose, count):
    """What may be taken for a number, or for what shields one, as attributes and as attributes of attributes."""
    texts = ATTRIBUTES + [b'{"attributes":%s,"a":[%s]}' % (text, text) for text in ATTRIBUTES]
    for text in texts:
        for space in (b"", b" "):
            for name in (b"attributes", b"\\u0061ttributes", b"attribute", b"transform"):
                member = b'"%s":%s%s%s' % (name, space, text, space)
                thing = b'{"type":"Road",%s}' % member
                document = EMPTY.replace(b'"CityObjects":{', b'"attributes":%s,"CityObjects":{"a":%s' % (text, thing))
                scripts = b'[{"name":"s","commands":[{"put":"b","object":%s},{"read":"a"},"commit"]}]' % thing
                yield lambda given=(document, scripts): bool(program.edited(*given))


def limits(program, choose, count):
    """Nesting of 127 and length of 67,108,864 bytes count in the encoded text, and the given text is judged first."""
    for depth in range(120, 131):
        for inner in (b"", b"1", b"1.5", b'{"#":[2.5]}'):
            text = with_more(b"[" * depth + inner + b"]" * depth)
            as_read = text_of(encoded_top(value_of(text))).encode("utf-8")
            deepest = max(nested(as_read), nested(text))
            fault = None if deepest <= json_tree.DEEPEST else "model: 2 NotJson"
            yield lambda given=(text, b"[]", fault): program.taken(*given)
    longest, too_long = json_tree.LONGEST, "model: 1 TooLong"
    start = len(text_of(encoded_top(value_of(with_more(b'[0.5,""]')))))
    for extra, fault in ((0, None), (1, too_long)):
        spaced = EMPTY + b" " * (longest - len(EMPTY) + extra)
        yield lambda given=(spaced, b"[]", fault): program.taken(*given)
        grown = with_more(b'[0.5,"' + b"x" * (longest - start + extra) + b'"]')
        yield lambda given=(grown, b"[]", fault): program.taken(*given)
    spaced = b"[]" + b" " * (longest - 1)
    yield lambda: program.taken(EMPTY, spaced, "scripts: 1 TooLong")


def nested(text):
    """How deep a text nests. No text of it has a bracket."""
    deepest = depth = 0
    for byte in text:
        depth += (byte in b"[{") - (byte in b"]}")
        deepest = max(deepest, depth)
    return deepest


def smallest_changes(program, choose, count):
    """The comparison itself: each smallest change of what a program wrote is seen."""
    for _ in range(count // 200):
        document = spelt_text(choose, model(choose)).encode("utf-8")

        def seen(document=document):
            (line,) = program.edited(document, b"[]")
            wanted, tried = value_of(line), 0
            for changed in changes_of(wanted):
                if value_of(text_of(changed).encode("utf-8")) == wanted:
                    raise Different(document, b"[]", line, f"a difference from {text_of(changed)}")
                tried += 1
            return tried

        yield seen


KINDS = [random_texts, random_models, written_again, random_edits, whole_texts]
KINDS += [json_table, named_faults, named_attributes, limits, smallest_changes]


def main():
    words = argparse.ArgumentParser()
    words.add_argument("program")
    words.add_argument("--seed", type=int, default=1)
    words.add_argument("--only", choices=[kind.__name__ for kind in KINDS])
    words.add_argument("--texts", type=int, default=10_000)
    asked = words.parse_args()
    with tempfile.TemporaryDirectory() as folder, ThreadPoolExecutor(2) as pool:
        program = Program(asked.program, folder)
        for kind in KINDS:
            if asked.only in (None, kind.__name__):
                choose = random.Random(f"{asked.seed} {kind.__name__}")
                tries = kind(program, choose, asked.texts)
                try:
                    tried = sum(pool.map(lambda each: int(each()), tries))
                except Different as different:
                    pool.shutdown(cancel_futures=True)
                    tell(different)
                print(f"{kind.__name__}: {tried} tried, none differs", flush=True)


def tell(different):
    room = tempfile.mkdtemp(prefix="different-")
    for name, text in zip(("model", "scripts"), different.args):
        with open(os.path.join(room, name), "wb") as file:
            file.write(text)
    got, wanted = different.args[2:]
    print(f"different: the texts are in {room}\n  got    {got!r:.2000}\n  wanted {wanted!r:.2000}")
    os._exit(1)


if __name__ == "__main__":
    main()
