"""Closed solids of houses, in millimetres, as CityJSON geometries."""
from math import cos, pi, sin


class Vertices:
    """The vertices of a document or a script, each once."""

    def __init__(self):
        self.places = {}

    def place(self, point):
        return self.places.setdefault(point, len(self.places))

    def points(self):
        return [list(point) for point in self.places]


def solid(lod, vertices, corners, faces):
    """A solid of one shell; each face names its corners as they turn when seen from outside."""
    places = [vertices.place(corner) for corner in corners]
    shell = [[[places[corner] for corner in face]] for face in faces]
    return {"type": "Solid", "lod": lod, "boundaries": [shell]}


def several(*solids, lod="1"):
    """Solids as one geometry."""
    return {"type": "MultiSolid", "lod": lod, "boundaries": [item["boundaries"] for item in solids]}


def ground(x, y, width, depth, height):
    return [(x, y, height), (x + width, y, height), (x + width, y + depth, height), (x, y + depth, height)]


def box(vertices, x, y, width, depth, height, lod="1"):
    corners = ground(x, y, width, depth, 0) + ground(x, y, width, depth, height)
    faces = [[0, 3, 2, 1], [4, 5, 6, 7], [0, 1, 5, 4], [1, 2, 6, 5], [2, 3, 7, 6], [3, 0, 4, 7]]
    return solid(lod, vertices, corners, faces)


def gabled(vertices, x, y, width, depth, eaves, ridge, lod="2"):
    """A house whose ridge runs along x."""
    middle = y + depth // 2
    corners = ground(x, y, width, depth, 0) + ground(x, y, width, depth, eaves)
    corners += [(x, middle, ridge), (x + width, middle, ridge)]
    faces = [
        [0, 3, 2, 1],
        [0, 1, 5, 4],
        [2, 3, 7, 6],
        [3, 0, 4, 8, 7],
        [1, 2, 6, 9, 5],
        [4, 5, 9, 8],
        [6, 7, 8, 9],
    ]
    return solid(lod, vertices, corners, faces)


def prism(vertices, x, y, radius, height, sides, lod="1"):
    """A tower over a regular polygon."""
    angles = [2 * pi * side / sides for side in range(sides)]
    around = [(x + int(radius * cos(angle)), y + int(radius * sin(angle))) for angle in angles]
    corners = [(*point, 0) for point in around] + [(*point, height) for point in around]
    walls = [[side, (side + 1) % sides, (side + 1) % sides + sides, side + sides] for side in range(sides)]
    faces = [list(range(sides))[::-1], list(range(sides, 2 * sides))] + walls
    return solid(lod, vertices, corners, faces)
