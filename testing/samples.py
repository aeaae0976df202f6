"""The samples, which hold all of the format, and a document without objects."""

import os

EMPTY = (
    b'{"CityObjects":{},"transform":{"scale":[1,1,1],"translate":[0,0,0]},'
    b'"type":"CityJSON","version":"2.0","vertices":[]}'
)
HERE = os.path.dirname(os.path.abspath(__file__))


def sample(name):
    with open(os.path.join(HERE, name), "rb") as file:
        return file.read()


def without_empty_fronts(city):
    """The sample is read from its tree, since lists in it are empty in front; without them, from its tokens."""
    for old, new in ((b"[[],[[[[3,2,1]]", b"[[[[[3,2,1]]"), (b'"boundaries":[]}', b'"boundaries":[[[0,1,2]]]}')):
        if city.count(old) != 1:
            raise ValueError(f"the sample has {old} not once")
        city = city.replace(old, new)
    return city


def both_samples():
    city = sample("sample.city.json").rstrip()
    return city, without_empty_fronts(city)
