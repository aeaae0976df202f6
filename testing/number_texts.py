"""JSON values whose numbers are their texts and whose objects are pairs, and what `cityed --decimals` makes of them.

Two values are equal only if each number has the same digits in the same form, and each object the same names in the
same order, repeated ones too. It follows docs/FORMAT.md and shares no code with the program.
"""

import json
import re
from dataclasses import dataclass

PLAIN = re.compile(r"-?(0|[1-9][0-9]{0,18})", re.ASCII)


@dataclass(frozen=True)
class Number:
    """A number, as it is written."""

    text: str


@dataclass(frozen=True)
class Members:
    """The members of an object in their order: pairs of a name and a value."""

    pairs: tuple

    def get(self, name, otherwise=None):
        """The last value of the name."""
        return dict(self.pairs).get(name, otherwise)

    def replacing(self, values):
        """The members with other values; those whose new value is None are left out."""
        pairs = ((name, values.get(name, value)) for name, value in self.pairs)
        return Members(tuple((name, value) for name, value in pairs if name not in values or value is not None))


def members(**values):
    return Members(tuple(values.items()))


def whole(number):
    return Number(str(number))


def refuse(word):
    raise ValueError(word)


def value_of(text):
    return json.loads(
        text.decode("utf-8"),
        parse_int=Number,
        parse_float=Number,
        parse_constant=refuse,
        object_pairs_hook=lambda pairs: Members(tuple(pairs)),
    )


def text_of(value, spelt=lambda text: json.dumps(text, ensure_ascii=False), space=lambda: ""):
    """The text of a value. `spelt` writes a text or a name, `space` what stands between the parts."""
    if isinstance(value, Number):
        return value.text
    if isinstance(value, str):
        return spelt(value)
    if isinstance(value, list):
        parts, ends = [text_of(item, spelt, space) for item in value], "[]"
    elif isinstance(value, Members):
        pairs, ends = value.pairs, "{}"
        parts = [f"{spelt(name)}{space()}:{space()}{text_of(item, spelt, space)}" for name, item in pairs]
    else:
        return json.dumps(value)
    return ends[0] + space() + f"{space()},{space()}".join(parts) + space() + ends[1]


# ---- the form in which the editor meets a value


def is_whole(text):
    """Whether a number is written as a whole number of 64 bits is: without a fraction, an exponent or -0."""
    return bool(PLAIN.fullmatch(text)) and text != "-0" and -(2**63) <= int(text) < 2**63


def encoded(value):
    if isinstance(value, Number):
        return value if is_whole(value.text) else Members((("#", value.text),))
    if isinstance(value, list):
        return [encoded(item) for item in value]
    if isinstance(value, Members):
        return Members(tuple((name, shielded(name, encoded(item), item)) for name, item in value.pairs))
    return value


def shielded(name, made, value):
    return [made] if has_shield(name, value) else made


def has_shield(name, value):
    """Whether a value stands in an array, so that no member is taken for a number, nor a number for attributes."""
    if name == "attributes":
        return isinstance(value, Number) and not is_whole(value.text) or is_single(value)
    return name == "#" and isinstance(value, (str, list))


def is_single(value):
    """An array of one item, which is no text; it could be taken for such an array."""
    return isinstance(value, list) and len(value) == 1 and not isinstance(value[0], str)


def is_triple(value):
    return isinstance(value, list) and len(value) == 3 and all(isinstance(item, Number) for item in value)


def is_frame(value):
    return isinstance(value, Members) and is_triple(value.get("scale")) and is_triple(value.get("translate"))


def encoded_top(value):
    """The encoded value of a whole text: a transform at the top is framed by the identity."""
    made = encoded(value)
    if not isinstance(value, Members):
        return made
    pairs = []
    for (name, item), (_, inner) in zip(value.pairs, made.pairs):
        if name == "transform" and is_frame(item):
            ones, noughts = [Number("1")] * 3, [Number("0")] * 3
            inner = Members((("#", inner), ("scale", ones), ("translate", noughts)))
        pairs.append((name, inner))
    return Members(tuple(pairs))


# ---- what the editor changes: the canonical text


def arranged(value):
    """The names of each object in byte order, and of a repeated one the last value."""
    if isinstance(value, list):
        return [arranged(item) for item in value]
    if isinstance(value, Members):
        last = {name: arranged(item) for name, item in value.pairs}
        return Members(tuple(sorted(last.items(), key=lambda pair: pair[0].encode("utf-8"))))
    return value


def replaced(value, new):
    return [replaced(item, new) for item in value] if isinstance(value, list) else new(value)


def boundaries_replaced(thing, new):
    renewed = lambda shape: shape.replacing({"boundaries": replaced(shape.get("boundaries"), new)})
    return thing.replacing({"geometry": [renewed(shape) for shape in thing.get("geometry", [])]})


def with_points(thing, vertices):
    """An arranged object whose positions are points, which are tuples of texts."""
    points = [tuple(number.text for number in vertex) for vertex in vertices]
    return boundaries_replaced(thing, lambda position: points[int(position.text)])


def written(thing, pool):
    """The object with its points numbered by the pool, without empty lists."""
    made = boundaries_replaced(thing, lambda point: whole(pool.setdefault(point, len(pool))))
    return made.replacing({name: made.get(name) or None for name in ("geometry", "parents", "children")})


def points_of(pool):
    return [[Number(text) for text in point] for point in pool]


def city_of(model):
    """The arranged model, and its objects by id."""
    top = arranged(model)
    return top, {name: with_points(thing, top.get("vertices")) for name, thing in top.get("CityObjects").pairs}


def model_of(top, city):
    pool = {}
    names = sorted(city, key=lambda name: name.encode("utf-8"))
    objects = Members(tuple((name, written(city[name], pool)) for name in names))
    return top.replacing({"CityObjects": objects, "vertices": points_of(pool)})


# ---- what scripts do that change objects, read, mark, go back, and end


class Refusal(Exception):
    """A command is refused: the cause, and the object that it names."""


def put_at(city, name, body):
    """The object of this body, with the relations of the one that was there."""
    there = city.get(name, Members(()))
    relations = [(kind, there.get(kind)) for kind in ("parents", "children") if there.get(kind)]
    return arranged(Members(body.pairs + tuple(relations)))


def found(city, name):
    if name not in city:
        return "absent"
    pool = {}
    thing = written(city[name], pool)
    return members(found=members(object=thing, vertices=points_of(pool)))


def amended(thing, name, values):
    """The object with other values of members; those whose new value is None are left out."""
    if thing is None:
        raise Refusal("NoObject", name)
    others = tuple(pair for pair in thing.pairs if pair[0] not in values)
    return arranged(Members(others + tuple(pair for pair in values.items() if pair[1] is not None)))


def attributes_of(thing, name):
    """The attributes of an object by their names, none where it has no such member, and None where it has another."""
    if thing is None:
        raise Refusal("NoObject", name)
    there = thing.get("attributes", Members(()))
    return dict(there.pairs) if isinstance(there, Members) else None


def with_attributes(thing, name, changed_by):
    there = attributes_of(thing, name)
    if there is None:
        raise Refusal("BadAttributes", name)
    left = changed_by(there)
    return amended(thing, name, {"attributes": None if left is None else Members(tuple(left.items()))})


def changed_by(verb, name, given, vertices, seen):
    """What a command makes of the objects that are seen, and its reply."""
    there = seen.get(name)
    if verb in ("put", "add"):
        if verb == "add" and there is not None:
            raise Refusal("Exists", name)
        made = put_at(seen, name, with_points(given["object"], vertices))
        return {**seen, name: made}, "added" if there is None else "replaced"
    if verb == "set":
        named = dict(given["attributes"].pairs)
        return {**seen, name: with_attributes(there, name, lambda old: {**old, **named})}, "set"
    if verb == "unset":
        left = lambda old: {other: value for other, value in old.items() if other not in given["attributes"]} or None
        return {**seen, name: with_attributes(there, name, left)}, "unset"
    if verb == "reshape":
        geometry = with_points(members(geometry=given["geometry"]), vertices).get("geometry")
        return {**seen, name: amended(there, name, {"geometry": geometry})}, "reshaped"
    if verb == "expect":
        old = attributes_of(there, name) or {}
        if any(other not in old or not are_same(value, old[other]) for other, value in given["attributes"].pairs):
            raise Refusal("Unexpected", name)
        return seen, "expected"
    return seen, found(seen, name)


def are_same(one, other):
    """Whether two arranged values are written alike."""
    return text_of(one) == text_of(other)


VERBS = ("read", "put", "add", "set", "unset", "reshape", "expect")


def play(city, script):
    """The city after a script, its ending, and its replies."""
    script = arranged(script)
    seen, marks, replies = city, [], []
    *commands, last = script.get("commands")
    for place, command in enumerate(commands):
        given = dict(command.pairs)
        verb = next((verb for verb in VERBS if verb in given), None)
        if verb:
            try:
                seen, reply = changed_by(verb, given[verb], given, script.get("vertices", []), seen)
            except Refusal as refusal:
                cause, name = refusal.args
                return city, {"outcome": "refused", "at": whole(place), "cause": cause, "id": name}, replies
            replies.append(reply)
        elif "mark" in given:
            marks.append((given["mark"], seen))
            replies.append("marked")
        else:
            while marks[-1][0] != given["back"]:
                marks.pop()
            seen = marks[-1][1]
            replies.append("back")
    return (seen, {"outcome": "committed"}, replies) if last == "commit" else (city, {"outcome": "aborted"}, replies)


def answer_of(model, scripts, order):
    """The lines that the program writes, as values. `order` has a script's number and its `since` for each line."""
    top, city = city_of(model)
    lines = []
    for number, since in order:
        script = scripts[number]
        city, ending, replies = play(city, script)
        placed = {"script": whole(number), "since": whole(since)}
        told = {**ending, "name": script.get("name"), "replies": replies, **placed}
        lines.append(members(**dict(sorted(told.items()))))
    return lines + [model_of(top, city)]
