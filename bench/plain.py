"""Plain objects: attributes alone, so long that each takes a number of bytes of the text."""
import json

TYPES = ["LandUse", "Road", "Building", "WaterBody", "PlantCover", "CityFurniture"]


def plain_object(number, size):
    kind = TYPES[number % len(TYPES)]
    attributes = {"number": number, "surveyed": 20261122, "owner": "municipality"}
    plain = {"type": kind, "attributes": attributes}
    room = size - len(json.dumps(plain, separators=(",", ":"))) - 30
    attributes["remark"] = "x" * max(room, 0)
    return plain
