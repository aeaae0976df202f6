#!/usr/bin/env python3
"""Draws a city model as SVG, or two models side by side with what changed in colour.

usage: draw.py [--from DEGREES] BEFORE [AFTER] > PICTURE.svg

BEFORE and AFTER are CityJSON files, or an input or an output of cityed: the line that has the model is drawn. Or they
are folders of tiles, NAME.city.json, which are drawn as one city.
The viewer stands DEGREES east of north, 150 if not given, and looks down at 35 degrees. Of each object the finest
geometry is drawn, and a footprint (level of detail 0) on the ground. With AFTER, an object that only AFTER has
is green, one that only BEFORE has is red, and one that isn't the same in both is orange; where something was
taken out, its outline is left on the ground. A name has the colour of its building, whose parts may have others.
Each face is compared with each other one to find which hides which, so it is for small models.
"""
import argparse
import heapq
import json
from html import escape
from math import cos, hypot, radians, sin
from pathlib import Path

PANEL = 430  # the width of one picture, in pixels
MOST_NAMES = 12  # names are left out where there are more buildings
COLOURS = {
    "same": (228, 221, 209),
    "changed": (240, 165, 60),
    "added": (105, 178, 105),
    "taken out": (219, 92, 80),
}
INK = {"same": "#333", "changed": "#a85f00", "added": "#24702a", "taken out": "#a3241a"}


def models_of(path):
    """The model in a file, or those of a folder of tiles."""
    place = Path(path)
    return [model_of(it) for it in sorted(place.glob("*.city.json"))] if place.is_dir() else [model_of(place)]


def model_of(path):
    """The model in a file: the whole file, or the first of its lines that holds one."""
    text = path.read_text(encoding="utf-8")
    for part in [text, *text.splitlines()]:
        try:
            value = json.loads(part)
        except ValueError:
            continue
        if isinstance(value, dict) and value.get("type") == "CityJSON":
            return value
    raise SystemExit(f"draw.py: no model in {path}")


def surfaces_of(boundaries):
    """The surfaces in boundaries of any nesting, each a list of rings."""
    for item in boundaries:
        if item and item[0] and isinstance(item[0][0], int):
            yield item
        else:
            yield from surfaces_of(item)


def dot(a, b):
    return sum(x * y for x, y in zip(a, b))


def normal_of(ring):
    """The unit normal of a ring, which points to the side from which the ring runs counterclockwise."""
    sums = [0.0, 0.0, 0.0]
    for (x, y, z), (u, v, w) in zip(ring, ring[1:] + ring[:1]):
        sums[0] += (y - v) * (z + w)
        sums[1] += (z - w) * (x + u)
        sums[2] += (x - u) * (y + v)
    length = hypot(*sums) or 1.0
    return [it / length for it in sums]


class City:
    """The objects of models, with their points as coordinates."""

    def __init__(self, models):
        self.objects, self.shapes, self.faces, self.footprints = {}, {}, {}, {}
        for model in models:
            self.add(model)

    def add(self, model):
        scale, translate = model["transform"]["scale"], model["transform"]["translate"]
        points = [tuple(p * s + t for p, s, t in zip(point, scale, translate)) for point in model["vertices"]]

        def placed(item):
            return [placed(it) for it in item] if isinstance(item, list) else points[item]

        self.objects.update(model["CityObjects"])
        for name, it in model["CityObjects"].items():
            geometries = sorted(it.get("geometry", []), key=lambda geometry: geometry["lod"])
            shapes = [[g["type"], g["lod"], placed(list(surfaces_of(g["boundaries"])))] for g in geometries]
            self.shapes[name] = shapes
            flat = [faces for _, lod, faces in shapes if lod.startswith("0")]
            self.faces[name] = shapes[-1][2] if len(shapes) > len(flat) else []
            lowest = min((p[2] for face in self.faces[name] for p in face[0]), default=0)
            bottom = [face for face in self.faces[name] if all(p[2] == lowest for p in face[0])]
            self.footprints[name] = flat[-1] if flat else bottom

    def is_solid(self, name):
        """Whether what is drawn of an object is a solid, whose faces are seen from outside alone."""
        return bool(self.shapes[name]) and self.shapes[name][-1][0].endswith("Solid")

    def value(self, name):
        """What is compared of an object: all that it is, with coordinates for its positions."""
        it = self.objects[name]
        others = {key: it[key] for key in it if key != "geometry"}
        kept = [{key: g[key] for key in g if key != "boundaries"} for g in it.get("geometry", [])]
        return [others, kept, self.shapes[name]]

    def family(self, name):
        """The object and all that is below it."""
        below = [name]
        for it in below:
            children = self.objects[it].get("children", [])
            below += [child for child in children if child in self.objects and child not in below]
        return below


class View:
    """An axonometric view: lengths along one direction are scaled alike, wherever they lie."""

    def __init__(self, degrees, points):
        a, e = radians(180 - degrees), radians(35)
        self.right = (cos(a), sin(a), 0)
        self.up = (-sin(a) * sin(e), cos(a) * sin(e), cos(e))
        self.viewer = (sin(a) * cos(e), -cos(a) * cos(e), sin(e))
        light = [0.35 * v - 0.60 * r for r, v in zip(self.right, self.viewer)]
        light[2] += 0.9
        self.light = [it / hypot(*light) for it in light]
        self.ground = min(p[2] for p in points)
        low = [min(p[i] for p in points) for i in (0, 1)]
        high = [max(p[i] for p in points) for i in (0, 1)]
        edge = 0.07 * max(high[0] - low[0], high[1] - low[1])
        xs, ys = (low[0] - edge, high[0] + edge), (low[1] - edge, high[1] + edge)
        self.plot = [(x, y, self.ground) for x, y in ((xs[0], ys[0]), (xs[1], ys[0]), (xs[1], ys[1]), (xs[0], ys[1]))]
        drawn = [*self.plot, *points, *map(self.shadow, points)]
        across, above = [dot(p, self.right) for p in drawn], [dot(p, self.up) for p in drawn]
        self.scale = (PANEL - 20) / (max(across) - min(across))
        self.left, self.top = min(across), max(above)
        self.height = (max(above) - min(above)) * self.scale

    def flat(self, point):
        """Where a point is drawn, in pixels from the upper left corner."""
        return (
            10 + (dot(point, self.right) - self.left) * self.scale,
            58 + (self.top - dot(point, self.up)) * self.scale,
        )

    def shadow(self, point):
        """Where the shadow of a point falls on the ground."""
        far = (point[2] - self.ground) / self.light[2]
        return tuple(p - far * it for p, it in zip(point, self.light))

    def colour(self, base, normal):
        """A colour in the light that a face with this normal gets; roofs are lighter than walls."""
        shade = 0.66 + 0.42 * max(0.0, dot(normal, self.light))
        tint = 0.24 if normal[2] > 0.2 else 0.0
        parts = [min(255, (it + (255 - it) * tint) * shade) for it in base]
        return "#" + "".join(f"{round(it):02x}" for it in parts)


class Face:
    """A face of an object; one that bounds no solid is seen from both sides."""

    def __init__(self, rings, state, view, is_solid):
        self.rings, self.state, self.normal = rings, state, normal_of(rings[0])
        if not is_solid and dot(self.normal, view.viewer) < 0:
            self.normal = [-it for it in self.normal]
        self.points = [p for ring in rings for p in ring]
        self.outline = hull([view.flat(p) for p in rings[0]])
        self.depth = sum(dot(p, view.viewer) for p in rings[0]) / len(rings[0])
        self.is_seen = dot(self.normal, view.viewer) > 1e-6

    def is_beyond(self, other):
        """Whether it may be drawn before another: it lies behind the other's plane, or the other before its own."""
        behind = all(dot(other.normal, minus(p, other.points[0])) < 1e-6 for p in self.points)
        return behind or all(dot(self.normal, minus(p, self.points[0])) > -1e-6 for p in other.points)


def minus(a, b):
    return [x - y for x, y in zip(a, b)]


def hull(points):
    """The convex hull of points of a plane, counterclockwise."""
    found = []
    for order in (sorted(set(points)), sorted(set(points), reverse=True)):
        half = []
        for x, y in order:
            while len(half) > 1 and turn(half[-2], half[-1], (x, y)) <= 0:
                half.pop()
            half.append((x, y))
        found += half[:-1]
    return found


def turn(a, b, c):
    return (b[0] - a[0]) * (c[1] - a[1]) - (b[1] - a[1]) * (c[0] - a[0])


def overlap(one, other):
    """Whether two convex outlines have more than an edge in common."""
    for outline, second in ((one, other), (other, one)):
        for a, b in zip(outline, outline[1:] + outline[:1]):
            if all(turn(a, b, p) <= 0.01 * hypot(b[0] - a[0], b[1] - a[1]) for p in second):
                return False
    return True


def painted(faces):
    """The faces in the order in which they are painted, from the one furthest back to the one in front."""
    after = [[] for _ in faces]
    before = [0] * len(faces)
    for i, one in enumerate(faces):
        for j, other in enumerate(faces[:i]):
            if overlap(one.outline, other.outline):
                first, second = one.is_beyond(other), other.is_beyond(one)
                if first != second:
                    back, front = (i, j) if first else (j, i)
                    after[back].append(front)
                    before[front] += 1
    ready = [(faces[i].depth, i) for i in range(len(faces)) if before[i] == 0]
    heapq.heapify(ready)
    done = set()
    while len(done) < len(faces):
        # Faces that hide one another in a ring have no order: then the furthest goes first.
        left = (i for i in range(len(faces)) if i not in done)
        at = heapq.heappop(ready)[1] if ready else min(left, key=lambda i: faces[i].depth)
        if at in done:
            continue
        done.add(at)
        yield faces[at]
        for front in after[at]:
            before[front] -= 1
            if before[front] == 0:
                heapq.heappush(ready, (faces[front].depth, front))


def path(rings, view):
    """The path of rings in the plane."""
    return "".join("M" + "L".join(f"{x:.1f} {y:.1f}" for x, y in map(view.flat, ring)) + "Z" for ring in rings)


def panel(city, states, gone, view, title):
    """The drawing of one city: the ground, shadows, footprints, faces in painter's order, and names."""
    lines = [f'<path class="plot" d="{path([view.plot], view)}"/>']
    faces = []
    for name in city.objects:
        faces += [Face(rings, states[name], view, city.is_solid(name)) for rings in city.faces[name]]
    shadows = [path([[view.shadow(p) for p in face.rings[0]]], view) for face in faces]
    lines += ['<g class="shadow">', *(f'<path d="{it}"/>' for it in shadows), "</g>"]
    for name in city.objects:
        for rings in city.footprints[name]:
            lines.append(f'<path class="footprint" stroke="{INK[states[name]]}" d="{path(rings, view)}"/>')
    for rings in gone:
        lines.append(f'<path class="gone" d="{path(rings, view)}"/>')
    for face in painted([it for it in faces if it.is_seen]):
        colour, edge = view.colour(COLOURS[face.state], face.normal), view.colour((95, 88, 80), face.normal)
        lines.append(f'<path fill="{colour}" stroke="{edge}" d="{path(face.rings, view)}"/>')
    lines += names(city, states, view)
    if title:
        lines.append(f'<text class="title" x="14" y="30">{title}</text>')
    return lines


def names(city, states, view):
    """The names of the objects that have no parent, each above its highest point and clear of the others."""
    lines, placed, tops = [], [], {}
    for name, it in city.objects.items():
        points = [p for part in city.family(name) for rings in city.faces[part] for p in rings[0]]
        if points and not it.get("parents"):
            tops[name] = points
    if len(tops) > MOST_NAMES:
        return []
    for name, points in tops.items():
        top = max(p[2] for p in points)
        highest = [view.flat(p) for p in points if p[2] == top]
        x, foot = (sum(p[i] for p in highest) / len(highest) for i in (0, 1))
        y, half = foot - 18, 4.3 * len(name)
        while any(abs(x - other) < half + width and abs(y - line) < 15 for other, line, width in placed):
            y -= 1
        placed.append((x, y, half))
        lines.append(f'<path class="leader" d="M{x:.1f} {foot:.1f}V{y + 4:.1f}"/>')
        lines.append(f'<text x="{x:.1f}" y="{y:.1f}" fill="{INK[states[name]]}">{escape(name)}</text>')
    return lines


def states_of(city, other, only):
    """What has become of each object of a city, beside another one: `only` where that one hasn't got it."""
    def state(name):
        if other is None:
            return "same"
        if name not in other.objects:
            return only
        return "same" if city.value(name) == other.value(name) else "changed"

    return {name: state(name) for name in city.objects}


STYLE = """\
text { font: 600 13px "DejaVu Sans", Verdana, sans-serif; text-anchor: middle;
  paint-order: stroke; stroke: #fbfaf7; stroke-width: 3.5px; stroke-linejoin: round }
text.title { font-size: 16px; text-anchor: start; fill: #333 }
text.legend { font-weight: 400; text-anchor: start; fill: #333 }
path { stroke-width: .9px; stroke-linejoin: round; fill-rule: evenodd }
.plot { fill: #e9ede0; stroke: #cfd6c2 }
.shadow { fill: #4a5240; opacity: .2 }
.footprint { fill: none; stroke-width: 1.2px }
.gone { fill: #f4d3cf; stroke: #a3241a; stroke-width: 1.4px; stroke-dasharray: 5 3 }
.leader { stroke: #555 }"""


def picture(before, after, degrees):
    """The lines of the picture of one city, or of two."""
    cities = [before] if after is None else [before, after]
    every = [it for city in cities for part in (city.faces, city.footprints) for it in part.values()]
    points = [p for surfaces in every for rings in surfaces for ring in rings for p in ring]
    if not points:
        raise SystemExit("draw.py: no object has a shape")
    view = View(degrees, points)
    width, height = PANEL * len(cities), round(view.height) + (72 if after is None else 104)
    lines = [
        f'<svg xmlns="http://www.w3.org/2000/svg" viewBox="0 0 {width} {height}" width="{width}" height="{height}">',
        f"<style>\n{STYLE}\n</style>",
        f'<rect width="{width}" height="{height}" rx="8" fill="#fbfaf7"/>',
    ]
    if after is None:
        lines += panel(before, states_of(before, None, ""), [], view, "")
    else:
        gone = [rings for name in before.objects if name not in after.objects for rings in before.footprints[name]]
        lines += panel(before, states_of(before, after, "taken out"), [], view, "before")
        lines += [f'<g transform="translate({PANEL} 0)">']
        lines += [*panel(after, states_of(after, before, "added"), gone, view, "after"), "</g>"]
        for place, state in enumerate(("changed", "added", "taken out")):
            x, colour = 14 + 110 * place, "#" + "".join(f"{it:02x}" for it in COLOURS[state])
            lines.append(f'<rect x="{x}" y="{height - 26}" width="14" height="14" fill="{colour}"/>')
            lines.append(f'<text class="legend" x="{x + 20}" y="{height - 14}">{state}</text>')
    return lines + ["</svg>"]


def main():
    words = argparse.ArgumentParser(usage=__doc__.split("usage: ")[1].split("\n")[0])
    words.add_argument("--from", dest="degrees", type=float, default=150)
    words.add_argument("before")
    words.add_argument("after", nargs="?")
    asked = words.parse_intermixed_args()
    before = City(models_of(asked.before))
    after = City(models_of(asked.after)) if asked.after else None
    print("\n".join(picture(before, after, asked.degrees)))


main()
