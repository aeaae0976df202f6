"""A small town for the trials of the page: streets, gabled houses with sheds, a park with a pond, and trees."""
import json
import random

BLOCK, ROAD = 76_000, 9_000  # millimetres
STREETS = "Mill Lane,Lime Street,Church Road,Water Street,Station Road,Orchard Way,School Lane,Kiln Row".split(",")
SEMANTICS = [{"type": "GroundSurface"}, {"type": "RoofSurface"}, {"type": "WallSurface"}]
POND = [(1, 0), (.8, .6), (.3, .95), (-.4, .9), (-.9, .5), (-1, -.1), (-.6, -.8), (.1, -1), (.7, -.7)]
CROWN = [(1, 0), (.7, .7), (0, 1), (-.7, .7), (-1, 0), (-.7, -.7), (0, -1), (.7, -.7)]


def box(x, y, w, d):
    return [(x, y), (x + w, y), (x + w, y + d), (x, y + d)]


class Town:
    """The objects of a town of so many blocks in a row, and their vertices."""

    def __init__(self, across, seed):
        self.rng, self.across = random.Random(seed), across
        self.objects, self.places, self.trees = {}, {}, 0

    def at(self, x, y, z):
        return self.places.setdefault((round(x), round(y), round(z)), len(self.places))

    def flat(self, corners, z=0):
        return [{"type": "MultiSurface", "lod": "0", "boundaries": [[[self.at(x, y, z) for x, y in corners]]]}]

    def solid(self, faces, values):
        return {"type": "Solid", "lod": "2.2", "boundaries": [[[face] for face in faces]],
                "semantics": {"surfaces": SEMANTICS, "values": [values]}}

    def prism(self, corners, h):
        n = len(corners)
        low, high = ([self.at(x, y, z) for x, y in corners] for z in (0, h))
        walls = [[low[k], low[(k + 1) % n], high[(k + 1) % n], high[k]] for k in range(n)]
        return self.solid([low[::-1], high, *walls], [0, 1] + [2] * n)

    def gable(self, x, y, w, d, eaves, ridge, along):
        """A house whose ridge runs along x, or along y."""
        low, high = ([self.at(*p, z) for p in box(x, y, w, d)] for z in (0, eaves))
        if along:
            r, s, k = self.at(x, y + d / 2, ridge), self.at(x + w, y + d / 2, ridge), 0
        else:
            r, s, k = self.at(x + w / 2, y, ridge), self.at(x + w / 2, y + d, ridge), 1
        roofs = [[high[k], high[k + 1], s, r], [high[k + 2], high[(k + 3) % 4], r, s]]
        walls = []
        for side in range(4):
            a, b = side, (side + 1) % 4
            top = [s] if a == (k + 1) % 4 else [r] if a == (k + 3) % 4 else []
            walls.append([low[a], low[b], high[b], *top, high[a]])
        return self.solid([low[::-1], *roofs, *walls], [0, 1, 1, 2, 2, 2, 2])

    def house(self, name, street, no, x, y, w, d):
        rng = self.rng
        storeys, along, gabled = rng.choice([1, 2, 2, 2, 3]), rng.random() < 0.6, rng.random() < 0.75
        eaves = 2_800 * storeys
        ridge = eaves + rng.randrange(1_800, 3_400)
        body = self.gable(x, y, w, d, eaves, ridge, along) if gabled else self.prism(box(x, y, w, d), eaves)
        self.objects[name] = {"type": "Building", "geometry": [body], "attributes": {
            "address": f"{street} {no}", "built": rng.randrange(1890, 2020), "storeys": storeys,
            "height": (ridge if gabled else eaves) // 10 / 100, "roof": "gable" if gabled else "flat",
            "energy label": rng.choice("ABCCDE"), "inspected": rng.random() < 0.3}}
        if rng.random() < 0.25:
            shed = name + "-shed"
            self.objects[name]["children"] = [shed]
            sx, sy = (x + w * 0.2, y + d) if along else (x + w, y + d * 0.2)
            self.objects[shed] = {"type": "BuildingPart", "parents": [name],
                                  "attributes": {"roof": "flat", "height": 2.4},
                                  "geometry": [self.prism(box(sx, sy, 3_000, 3_600), 2_400)]}

    def tree(self, x, y):
        self.trees += 1
        h = self.rng.randrange(5_000, 12_000)
        low, top = self.at(x, y, h * 0.18), self.at(x, y, h)
        mid = [self.at(x + h * 0.22 * c, y + h * 0.22 * s, h * 0.5) for c, s in CROWN]
        faces = [[mid[k], mid[(k + 1) % 8], top] for k in range(8)]
        faces += [[mid[(k + 1) % 8], mid[k], low] for k in range(8)]
        self.objects[f"tree-{self.trees:03}"] = {
            "type": "SolitaryVegetationObject", "attributes": {"height": h / 1000},
            "geometry": [{"type": "Solid", "lod": "1", "boundaries": [[[face] for face in faces]]}]}

    def park(self, x, y):
        self.objects["park"] = {"type": "LandUse", "attributes": {"use": "park"},
                                "geometry": self.flat(box(x, y, BLOCK, BLOCK))}
        pond = [(x + 40_000 + 16_000 * c, y + 42_000 + 11_000 * s) for c, s in POND]
        self.objects["pond"] = {"type": "WaterBody", "attributes": {"depth": 1.2}, "geometry": self.flat(pond, 20)}
        for _ in range(22):
            px, py = (at + self.rng.randrange(4_000, BLOCK - 4_000) for at in (x, y))
            if abs(px - x - 40_000) > 19_000 or abs(py - y - 42_000) > 14_000:
                self.tree(px, py)

    def block(self, k, j):
        x, y, rng = k * (BLOCK + ROAD) + ROAD, j * (BLOCK + ROAD) + ROAD, self.rng
        if (k, j) == (1, self.across - 2):
            return self.park(x, y)
        self.objects[f"plot-{k}-{j}"] = {"type": "LandUse", "attributes": {"use": "housing"},
                                         "geometry": self.flat(box(x, y, BLOCK, BLOCK))}
        no = 1
        for row in (0, 1):
            px = x + 4_000
            while True:
                w, d = rng.randrange(7_000, 13_000), rng.randrange(9_000, 13_000)
                if px + w > x + BLOCK - 4_000:
                    break
                py = y + 5_000 if row == 0 else y + BLOCK - 5_000 - d
                self.house(f"house-{k}-{j}-{no:02}", STREETS[(j + row) % 8], no + 20 * k, px, py, w, d)
                px += w + rng.choice([0, 3_500, 4_500])
                no += 1
        for _ in range(5):
            self.tree(x + rng.randrange(4_000, BLOCK - 4_000), y + rng.randrange(26_000, BLOCK - 26_000))

    def streets(self, n):
        side = n * BLOCK + (n + 1) * ROAD
        for k in range(n + 1):
            at, name = k * (BLOCK + ROAD), STREETS[k % 8]
            self.objects[f"street-{k}"] = {"type": "Road", "attributes": {"name": name, "width": 9.0},
                                           "geometry": self.flat(box(0, at, side, ROAD))}
            for j in range(n):
                self.objects[f"street-{k}-{j}"] = {
                    "type": "Road", "attributes": {"name": STREETS[(k + 4) % 8], "width": 9.0},
                    "geometry": self.flat(box(at, j * (BLOCK + ROAD) + ROAD, ROAD, BLOCK))}


def town(across=4, seed=3):
    """A model of a town."""
    made = Town(across, seed)
    made.streets(across)
    for j in range(across):
        for k in range(across):
            made.block(k, j)
    metadata = {"title": "Millfield", "referenceSystem": "https://www.opengis.net/def/crs/EPSG/0/7415"}
    return {"type": "CityJSON", "version": "2.0", "metadata": metadata,
            "transform": {"scale": [0.001] * 3, "translate": [84710.5, 446846.25, 0.0]},
            "CityObjects": made.objects, "vertices": [list(it) for it in made.places]}


def write_town(path, across=4):
    """Writes a town to a file, and gives how many buildings it has."""
    model = town(across)
    with open(path, "w", encoding="utf-8") as file:
        json.dump(model, file)
    return sum(it["type"] == "Building" for it in model["CityObjects"].values())
