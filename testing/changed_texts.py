"""The samples, cut, changed and arranged anew: kinds of texts, each of which gives pairs of a document and scripts."""

import itertools
import json

from samples import EMPTY, both_samples, sample

BYTES = [b'"', b"\\", b"{", b"}", b"[", b"]", b",", b":", b"0", b"-", b".", b"e", b" ", b"\n", b"\x00", b"\xff"]
VALUES = [None, True, 0, -1, 3, 10**19, 1.5, "", "b", "Road", "MultiPoint", [], [0], [[]], [[0, 0, 0]], {}]
VALUES.append({"location": 0})


def prefixes():
    scripts = sample("sample.scripts.json").rstrip()
    for city in both_samples():
        for end in range(len(city)):
            yield city[:end], b"[]"
    for end in range(len(scripts)):
        yield EMPTY, scripts[:end]


def replaced_bytes():
    city, scripts = sample("sample.city.json"), sample("sample.scripts.json")
    for document in both_samples():
        for at, byte in itertools.product(range(len(document)), BYTES):
            yield document[:at] + byte + document[at + 1 :], b"[]"
    for at, byte in itertools.product(range(len(scripts)), BYTES):
        yield city, scripts[:at] + byte + scripts[at + 1 :]


def removed_bytes():
    city, scripts = sample("sample.city.json"), sample("sample.scripts.json")
    for document in both_samples():
        for at in range(len(document)):
            yield document[:at] + document[at + 1 :], b"[]"
    for at in range(len(scripts)):
        yield city, scripts[:at] + scripts[at + 1 :]


def places(tree, path=()):
    """The paths of all members and items."""
    for name in tree if isinstance(tree, dict) else range(len(tree)) if isinstance(tree, list) else ():
        yield (*path, name)
        yield from places(tree[name], (*path, name))


def with_change(tree, path, change):
    """The text of a copy of the tree, changed at the path."""
    copy = json.loads(json.dumps(tree))
    parent = copy
    for name in path[:-1]:
        parent = parent[name]
    change(parent, path[-1])
    return json.dumps(copy).encode("utf-8")


def removed(parent, name):
    del parent[name]


def renamed(parent, name):
    if isinstance(parent, dict):
        parent[str(name) + "x"] = parent.pop(name)


def repeated(parent, name):
    if isinstance(parent, list):
        parent.insert(name, parent[name])


def changes_of(tree):
    for path in places(tree):
        for change in (removed, renamed, repeated):
            yield with_change(tree, path, change)
        for value in VALUES:
            yield with_change(tree, path, lambda parent, name: parent.__setitem__(name, value))


def changed_values():
    city, scripts = sample("sample.city.json"), sample("sample.scripts.json")
    for document in both_samples():
        for text in changes_of(json.loads(document)):
            yield text, b"[]"
    for text in changes_of(json.loads(scripts)):
        yield city, text


class Members(list):
    """An object's names and values in the order of its text, where names may recur."""


def text_of(tree):
    if isinstance(tree, Members):
        return "{" + ",".join(f"{json.dumps(name)}:{text_of(value)}" for name, value in tree) + "}"
    if isinstance(tree, list):
        return "[" + ",".join(map(text_of, tree)) + "]"
    return json.dumps(tree)


def objects_in(tree):
    if isinstance(tree, Members):
        yield tree
    for item in tree if isinstance(tree, list) else ():
        yield from objects_in(item[1] if isinstance(tree, Members) else item)


def arrangements_of(members):
    """Each member removed, first, last, and twice, also with another value before or behind it; all turned round."""
    yield members[::-1]
    for at, (name, value) in enumerate(members):
        rest = members[:at] + members[at + 1 :]
        yield rest
        yield [(name, value), *rest]
        yield [*rest, (name, value)]
        for other in (value, None, 1.5, 7, "", [], Members()):
            yield [(name, other), *members]
            yield [*members, (name, other)]


def members():
    """The members of each object of a document arranged anew: `vertices` comes first, last and twice, and an id too."""
    for document in both_samples():
        tree = json.loads(document, object_pairs_hook=Members)
        for one in objects_in(tree):
            as_they_were = list(one)
            for arrangement in arrangements_of(as_they_were):
                one[:] = arrangement
                yield text_of(tree).encode("utf-8"), b"[]"
            one[:] = as_they_were


KINDS = [prefixes, removed_bytes, replaced_bytes, changed_values, members]
