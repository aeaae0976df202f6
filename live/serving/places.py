"""Where each object of a city lies: what a page gets first, and draws until it has the shapes that are in view."""
import json
import sys
from pathlib import Path

sys.path.insert(0, str(Path(__file__).resolve().parent.parent))
from cityed import Number, dumps  # noqa: E402 - the client keeps digits


def dump(tree):
    """Compact JSON."""
    return json.dumps(tree, separators=(",", ":"), ensure_ascii=False)


def numbers_in(boundaries):
    """The numbers of vertices in boundaries of any depth."""
    stack = [boundaries]
    while stack:
        item = stack.pop()
        for it in item:
            if isinstance(it, list):
                stack.append(it)
            else:
                yield it


def box_of(points):
    """The least and the greatest of each coordinate, or None without a point."""
    points = list(points)
    if not points:
        return None
    axes = list(zip(*points))
    return [min(axis) for axis in axes] + [max(axis) for axis in axes]


def extent_of(object, frame):
    """`geographicalExtent` in the grid, of an object that has no shape."""
    extent = object.get("geographicalExtent")
    if not isinstance(extent, list) or len(extent) != 6:
        return None
    scale, translate = frame["transform"]["scale"] * 2, frame["transform"]["translate"] * 2
    return [round((n - t) / s) for n, s, t in zip(extent, scale, translate)]


def row_of(id, object, box):
    """An object's row: its id, type, box in the grid, and parents."""
    parents = object.get("parents", [])
    return dump([id, object["type"], box, *([parents] if parents else [])])


class Places:
    """A row for each object, of one version of the city."""

    def __init__(self, frame, rows, version):
        self.frame, self.rows, self.version, self.text = frame, rows, version, None

    @staticmethod
    def of_answer(line):
        """The places of a model's answer. This takes seconds for a large model, and so a thread of its own."""
        tree = json.loads(line, parse_float=Number)
        model, vertices, rows = tree["model"], tree["model"]["vertices"], {}
        for id, it in model["CityObjects"].items():
            numbers = {n for shape in it.get("geometry", []) for n in numbers_in(shape["boundaries"])}
            rows[id] = row_of(id, it, box_of(vertices[n] for n in numbers) or extent_of(it, model))
        frame = {name: it for name, it in model.items() if name not in ("CityObjects", "vertices")}
        return Places(frame, rows, tree["version"])

    def fold(self, line):
        """Follows a change."""
        changed = json.loads(line)["changed"]
        for id, it in changed["objects"].items():
            if it is None:
                self.rows.pop(id, None)
            else:
                object = it["object"]
                self.rows[id] = row_of(id, object, box_of(it["vertices"]) or extent_of(object, self.frame))
        self.version, self.text = changed["version"], None

    def told(self, epoch):
        """The rows as a line for a page."""
        if self.text is None:
            frame = dumps({name: self.frame[name] for name in ("transform", "metadata") if name in self.frame})
            rows = ",".join(self.rows.values())
            self.text = '"city":{"frame":%s,"objects":[%s]},"version":%d}' % (frame, rows, self.version)
        return '{"epoch":"%s",%s' % (epoch, self.text)
