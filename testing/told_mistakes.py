"""Common mistakes, and what has to be told of each: what mistakes.py plays."""

import gzip
import json
from dataclasses import dataclass, field

MODEL = b"""{
  "type": "CityJSON",
  "version": "2.0",
  "transform": {"scale": [1, 1, 1], "translate": [0, 0, 0]},
  "CityObjects": {
    "b12": {
      "type": "Building",
      "attributes": {"height": 9},
      "children": ["b12-roof"],
      "geometry": [{
        "type": "Solid",
        "lod": "1",
        "boundaries": [[[[0, 2, 1]], [[0, 1, 3]], [[1, 2, 3]], [[2, 0, 3]]]]
      }]
    },
    "b12-roof": {"type": "BuildingPart", "parents": ["b12"]}
  },
  "vertices": [[0, 0, 0], [9, 0, 0], [0, 9, 0], [0, 0, 9]]
}
"""
SCRIPTS = b"""[
  {
    "name": "a tree",
    "vertices": [[0, 0, 0], [1, 0, 0], [0, 1, 0]],
    "commands": [
      {"read": "b12"},
      {"put": "tree", "object": {
        "type": "SolitaryVegetationObject",
        "geometry": [{"type": "MultiSurface", "lod": "1", "boundaries": [[[0, 1, 2]]]}]
      }},
      "commit"
    ]
  }
]
"""
NAMES = ("tile.city.json", "scripts.json")


@dataclass
class Mistake:
    """A mistake, and what has to be told of it.

    `where`, `what` and `cure` are patterns that have to be found in these details, and `members` stand in the first
    line of --check.
    """

    mistake: str
    line: str
    file: str
    where: list = field(default_factory=list)
    what: list = field(default_factory=list)
    cure: list = field(default_factory=list)
    members: dict = field(default_factory=dict)
    # pairs of a text in one of the two files and what stands in its place; or the whole texts of files by their names
    changes: list = field(default_factory=list)
    texts: dict = field(default_factory=dict)
    words: tuple = NAMES
    # the file to which standard output goes
    output: str = ""

    def changed(self, name, text):
        """The text of the file, as the mistake has it."""
        for old, new in self.changes:
            if text.count(old) > 1:
                raise ValueError(f"{old} isn't once in {name}")
            text = text.replace(old, new)
        return self.texts.get(name, text)

    def is_of_text(self):
        return "cannot" not in self.line

    def can_be_checked(self):
        """Whether the mistake can be made with --check, which writes no model."""
        return "cannot write" not in self.line and not self.output


def of_model(mistake, fault, changes, **wanted):
    return Mistake(mistake, f"cityed: model: {fault}", NAMES[0], changes=changes, **wanted)


def of_scripts(mistake, fault, changes, **wanted):
    return Mistake(mistake, f"cityed: scripts: {fault}", NAMES[1], changes=changes, **wanted)


NO_PARENTS = [(b'"children": ["b12-roof"],\n', b"\n"), (b', "parents": ["b12"]', b"")]
READ = b'{"read": "b12"}'
ONE_LINE = json.dumps(json.loads(MODEL)).encode() + b"\n"
FEATURE = b'{"type": "CityJSONFeature", "id": "b13", "CityObjects": {"b13": {"type": "Building"}}, "vertices": []}\n'
COMMAND = ["script 0\\b.*command 1\\b"]

CASES = [
    Mistake(
        "a file that is missing", "cityed: cannot read", "tile.city.jsn",
        what=[r"No such file or directory \(os error 2\)"], words=("tile.city.jsn", "scripts.json"),
    ),
    Mistake(
        "scripts that are missing", "cityed: cannot read", "script.json",
        what=[r"No such file or directory \(os error 2\)"], words=("tile.city.json", "script.json"),
    ),
    Mistake(
        "a folder as a file", "cityed: cannot read", "folder",
        what=[r"Is a directory \(os error 21\)"], words=("folder", "scripts.json"),
    ),
    Mistake(
        "the two files swapped", 'cityed: model: 4 NotCityJson "type"', "scripts.json",
        what=["scripts"], cure=["MODEL"], words=NAMES[::-1],
        members={"fault": "NotCityJson", "member": "type", "form": "scripts"},
    ),
    Mistake(
        "the model given twice", "cityed: scripts: 4 NotScripts", "tile.city.json",
        what=["model"], cure=["scripts"], words=(NAMES[0], NAMES[0]),
        members={"fault": "NotScripts", "form": "model"},
    ),
    of_model(
        "a missing comma in the model", "2 NotJson", [(b'"2.0",', b'"2.0"')],
        where=[r"line 4\b.*column 3\b"], members={"fault": "NotJson", "line": 4, "column": 3},
    ),
    of_scripts(
        "a missing comma in the scripts", "2 NotJson", [(b'{"read": "b12"},', b'{"read": "b12"}')],
        where=[r"line 7\b.*column 7\b"], members={"fault": "NotJson", "line": 7, "column": 7},
    ),
    of_model(
        "an unknown type in the model", '5 UnknownType "b12"', [(b'"Building"', b'"Bulding"')],
        where=['object "b12"'], what=["Bulding"], cure=["GenericCityObject"],
        members={"fault": "UnknownType", "id": "b12", "given": "Bulding"},
    ),
    of_scripts(
        "an unknown type in a put", "7 BadCommand 0 1", [(b"SolitaryVegetationObject", b"Tree")],
        where=COMMAND, what=["Tree"], cure=["GenericCityObject"],
        members={"fault": "BadCommand", "script": 0, "command": 1, "rule": "type", "given": "Tree"},
    ),
    of_model(
        "a solid that isn't closed", '11 OpenShell "b12"', [(b", [[2, 0, 3]]", b"")],
        where=['object "b12"', "geometry 0", "shell 0"], cure=["MultiSurface"],
        members={
            "fault": "OpenShell", "id": "b12", "geometry": 0, "lod": "1", "shell": 0,
            "edges": [
                {"from": [0, 0, 0], "ring": 0, "surface": 0, "to": [0, 9, 0]},
                {"from": [0, 0, 9], "ring": 0, "surface": 1, "to": [0, 0, 0]},
                {"from": [0, 9, 0], "ring": 0, "surface": 2, "to": [0, 0, 9]},
            ],
        },
    ),
    of_model(
        "a part without parents", '10 Relations "b12-roof"', NO_PARENTS,
        where=['object "b12-roof"'], what=["parent"],
        members={"fault": "Relations", "id": "b12-roof", "rule": "no parents", "list": "parents"},
    ),
    of_model(
        "a parent that doesn't list its part", '10 Relations "b12-roof"', NO_PARENTS[:1],
        where=['object "b12-roof"'], what=["b12"],
        members={"fault": "Relations", "id": "b12-roof", "rule": "not mutual", "list": "parents", "other": "b12"},
    ),
    of_model(
        "a position out of range in the model", '8 BadVertex "b12"', [(b"[[0, 2, 1]]", b"[[0, 2, 4]]")],
        where=['object "b12"', "geometry 0", "surface 0"], what=[r"\b4\b"],
        members={
            "fault": "BadVertex", "id": "b12", "geometry": 0, "lod": "1", "shell": 0, "surface": 0, "ring": 0, "item": 2,
            "position": 4, "vertices": 4,
        },
    ),
    of_scripts(
        "a position out of range in a put", "8 BadVertex 0 1", [(b"[[[0, 1, 2]]]", b"[[[0, 1, 3]]]")],
        where=COMMAND, what=[r"\b3\b"],
        members={"fault": "BadVertex", "script": 0, "command": 1, "geometry": 0, "item": 2, "position": 3, "vertices": 3},
    ),
    of_model(
        "a fraction without `--decimals`", "3 NotWhole", [(b'"height": 9', b'"height": 9.50')],
        where=[r"CityObjects\.b12\.attributes\.height"], what=[r"\b9\.50\b"], cure=["--decimals"],
        members={"fault": "NotWhole", "path": "CityObjects.b12.attributes.height", "value": "9.50"},
    ),
    Mistake(
        "output redirected onto MODEL", "cityed: model: 2 NotJson", NAMES[0], what=["empty"], output=NAMES[0],
    ),
    of_model(
        "an empty file", "2 NotJson", [], texts={NAMES[0]: b""}, what=["empty"],
        members={"fault": "NotJson", "form": "empty"},
    ),
    of_model(
        "a byte order mark", "2 NotJson", [], texts={NAMES[0]: b"\xef\xbb\xbf" + MODEL}, what=["byte order mark"],
        members={"fault": "NotJson", "form": "byte order mark"},
    ),
    of_model(
        "a text in UTF-16", "2 NotJson", [], texts={NAMES[0]: MODEL.decode("utf-8").encode("utf-16")},
        what=["UTF-16"], members={"fault": "NotJson", "form": "UTF-16"},
    ),
    of_model(
        "a model that gzip compressed", "2 NotJson", [], texts={NAMES[0]: gzip.compress(MODEL)}, what=["gzip"],
        cure=["Decompress"], members={"fault": "NotJson", "form": "gzip"},
    ),
    of_model(
        "CityJSONSeq", "2 NotJson", [], texts={NAMES[0]: ONE_LINE + FEATURE}, what=["CityJSONSeq"],
        cure=["cjseq collect"], members={"fault": "NotJson", "form": "CityJSONSeq"},
    ),
    of_model(
        "a line of CityJSONSeq", '4 NotCityJson "type"', [], texts={NAMES[0]: FEATURE}, where=["type"],
        what=["CityJSONSeq"], cure=["cjseq collect"],
        members={"fault": "NotCityJson", "member": "type", "given": "CityJSONFeature"},
    ),
    of_model(
        "NaN as a number", "2 NotJson", [(b'"height": 9', b'"height": NaN')],
        where=[r"line 8\b"], what=["NaN"], members={"fault": "NotJson", "line": 8, "reason": "NaN is no number of JSON"},
    ),
    of_model(
        "two models in one file", "2 NotJson", [], texts={NAMES[0]: MODEL + MODEL},
        where=[r"line 20\b"], what=["second line"], members={"fault": "NotJson", "line": 20},
    ),
    of_model(
        "a comma too many in the model", "2 NotJson", [(b'"height": 9', b'"height": 9,')],
        where=[r"line 8\b"], what=["a name in quotes"], members={"fault": "NotJson", "line": 8},
    ),
    of_model(
        "an older version", '4 NotCityJson "version"', [(b'"2.0"', b'"1.1"')],
        where=["version"], what=[r"1\.1"], cure=["Upgrade"],
        members={"fault": "NotCityJson", "member": "version", "given": "1.1"},
    ),
    of_scripts(
        "a misspelt set, whose attributes come first", "7 BadCommand 0 0",
        [(READ, b'{"sett": "b12", "attributes": {"height": 9}}')],
        where=["script 0\\b.*command 0\\b"], what=['"sett"', '"set"'], cure=["name"],
        members={"fault": "BadCommand", "command": 0, "rule": "no command", "given": "sett", "nearest": "set"},
    ),
    of_scripts(
        "a put with parents", "7 BadCommand 0 0",
        [(READ, b'{"put": "b13", "object": {"type": "BuildingPart", "parents": ["b12"]}}')],
        where=["script 0\\b.*command 0\\b", 'object "b13"'], what=["parents"], cure=["attach"],
        members={"fault": "BadCommand", "command": 0, "rule": "relations", "member": "parents"},
    ),
    of_scripts(
        "a script without an end", "5 BadScript 0", [(b'}},\n      "commit"', b"}}")],
        where=["script 0\\b"], what=["commit", "abort"], cure=["last command"],
        members={"fault": "BadScript", "script": 0, "rule": "no end"},
    ),
    of_scripts(
        "a misspelt command", "7 BadCommand 0 0", [(b'{"read": "b12"}', b'{"raed": "b12"}')],
        where=["script 0\\b.*command 0\\b"], what=["raed"],
        members={"fault": "BadCommand", "script": 0, "command": 0, "rule": "no command", "given": "raed", "nearest": "read"},
    ),
    of_scripts(
        "names where a set wants values", "7 BadCommand 0 0", [(READ, b'{"set": "b12", "attributes": ["height"]}')],
        where=["script 0\\b.*command 0\\b", 'object "b12"'], what=["object"], cure=["value"],
        members={"fault": "BadCommand", "script": 0, "command": 0, "rule": "attributes"},
    ),
    of_scripts(
        "values where an unset wants names", "7 BadCommand 0 0",
        [(READ, b'{"unset": "b12", "attributes": {"height": 9}}')],
        where=["script 0\\b.*command 0\\b", 'object "b12"'], what=["array"], cure=["names"],
        members={"fault": "BadCommand", "script": 0, "command": 0, "rule": "attributes"},
    ),
    of_scripts(
        "an object where a set wants attributes", "7 BadCommand 0 0",
        [(READ, b'{"set": "b12", "object": {"attributes": {"height": 9}}}')],
        where=["script 0\\b.*command 0\\b"], what=["attributes"],
        members={"fault": "BadCommand", "script": 0, "command": 0, "rule": "missing", "member": "attributes"},
    ),
    of_scripts(
        "a position out of range in a reshape", "8 BadVertex 0 0",
        [(READ, b'{"reshape": "b12", "geometry": [{"type": "Solid", "lod": "1", "boundaries": [[[[0, 1, 3]]]]}]}')],
        where=["script 0\\b.*command 0\\b", 'object "b12"', "geometry 0"], what=[r"\b3\b"],
        members={"fault": "BadVertex", "command": 0, "geometry": 0, "shell": 0, "item": 2, "position": 3, "vertices": 3},
    ),
    Mistake(
        "a full place for standard output", "cityed: cannot write", "standard output",
        what=[r"No space left on device \(os error 28\)"], output="/dev/full",
    ),
    Mistake(
        "a folder for `--output` that is missing", "cityed: cannot write", "missing/new.json",
        what=[r"No such file or directory \(os error 2\)"], words=("--output", "missing/new.json", *NAMES),
    ),
    Mistake(
        "a folder as `--output`", "cityed: cannot write", "folder", words=("--output", "folder", *NAMES),
    ),
]


@dataclass
class Silent:
    """A mistake that is no fault, so that its reply alone may tell of it; and the commands that were meant.

    Commands are those of scripts, each script with its replies, or with the cause of its refusal. `left` and `kept` are
    the members that the building has afterwards.
    """

    mistake: str
    made: list
    told: list
    left: str
    meant: list
    answered: list
    kept: str


def height(value, verb="set"):
    return {verb: "b12", "attributes": {"height": value}}


PUT = {"put": "b12", "object": {"type": "Building", "attributes": {"height": 12}}}
WHOLE, SHORT = "attributes children geometry type", "attributes children type"

SILENT = [
    Silent(
        "a put of one attribute: the geometry is lost",
        [[PUT]], ["replaced"], SHORT,
        [[height(12)]], ["set"], WHOLE,
    ),
    Silent(
        "a put of a new object, whose id is taken: the old one is lost",
        [[PUT]], ["replaced"], SHORT,
        [[{"add": "b12", "object": PUT["object"]}]], ["Exists"], WHOLE,
    ),
    Silent(
        "two scripts that were made from one reading: the first one's edit is lost",
        [[height(12)], [height(12)]], ["set", "set"], WHOLE,
        [[height(9, "expect"), height(12)], [height(9, "expect"), height(12)]], ["expected, set", "Unexpected"], WHOLE,
    ),
]
