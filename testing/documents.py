"""CityJSON documents as cityed reads, judges and writes them (docs/FORMAT.md)."""

from json_tree import Fault, is_number, is_triple, are_texts, are_triples, print_tree, tree_of

FAMILIES = {
    "Building": "Part Installation ConstructiveElement Furniture Storey Room Unit",
    "Bridge": "Part Installation ConstructiveElement Room Furniture",
    "Tunnel": "Part Installation ConstructiveElement HollowSpace Furniture",
}
FIRST_LEVEL = (
    "Building Bridge Tunnel CityFurniture LandUse OtherConstruction PlantCover SolitaryVegetationObject TINRelief "
    "Road Railway Waterway TransportSquare WaterBody GenericCityObject"
).split()
FAMILY_OF = {name: name for name in FIRST_LEVEL}
FAMILY_OF |= {family + part: family for family, parts in FAMILIES.items() for part in parts.split()}
UNSUPPORTED = ("MultiPoint", "MultiLineString", "GeometryInstance")
NESTING = {"MultiSurface": 3, "CompositeSurface": 3, "Solid": 4, "MultiSolid": 5, "CompositeSolid": 5}
SURFACE, SHELL = 2, 3


def read_city(text):
    """Returns the frame (the document without its objects and vertices) and the objects by id."""
    tree = tree_of(text)
    judge_top(tree)
    objects, vertices = tree["CityObjects"], tree["vertices"]
    judge_each(objects, lambda name, obj: object_fault(obj))
    judge_each(objects, lambda name, obj: position_fault(obj, len(vertices)))
    city = {name: with_points(obj, vertices) for name, obj in objects.items()}
    judge_each(city, lambda name, obj: ring_fault(obj))
    lists = {name: lists_of(obj) for name, obj in objects.items()}
    judge_each(objects, lambda name, obj: relations_fault(objects, lists, name))
    judge_each(city, lambda name, obj: shell_fault(obj))
    for name, (parents, children) in lists.items():
        city[name]["parents"], city[name]["children"] = parents, children
    return {name: value for name, value in tree.items() if name not in ("CityObjects", "vertices")}, city


def judge_top(tree):
    if not isinstance(tree, dict) or tree.get("type") != "CityJSON":
        raise Fault(4, "NotCityJson", "type")
    if tree.get("version") != "2.0":
        raise Fault(4, "NotCityJson", "version")
    transform = tree.get("transform")
    if not isinstance(transform, dict) or not is_triple(transform.get("scale")) or not is_triple(transform.get("translate")):
        raise Fault(4, "NotCityJson", "transform")
    objects = tree.get("CityObjects")
    if not isinstance(objects, dict) or not all(isinstance(obj, dict) for obj in objects.values()):
        raise Fault(4, "NotCityJson", "CityObjects")
    if not are_triples(tree.get("vertices")):
        raise Fault(4, "NotCityJson", "vertices")
    if tree.get("extensions", {}) != {}:
        raise Fault(4, "NotCityJson", "extensions")


OBJECT_FAULTS = "UnknownType Unsupported BadGeometry BadVertex BadRing Relations OpenShell".split()


def judge_each(objects, fault_of):
    """Raises the fault of least number, and of those the one of least id."""
    found = []
    for name, obj in objects.items():
        fault = fault_of(name, obj)
        if fault:
            kind, *fields = fault
            found.append((5 + OBJECT_FAULTS.index(kind), name, kind, fields))
    if found:
        number, name, kind, fields = min(found)
        raise Fault(number, kind, name, *fields)


def object_fault(obj):
    """The faults that an object has by itself, before its positions are looked at."""
    if not isinstance(obj.get("type"), str) or obj["type"] not in FAMILY_OF:
        return ("UnknownType",)
    address = obj.get("address")
    if any(isinstance(item, dict) and "location" in item for item in (address if isinstance(address, list) else [address])):
        return "Unsupported", "location"
    geometry = obj.get("geometry", [])
    if isinstance(geometry, list):
        for item in geometry:
            if isinstance(item, dict) and isinstance(item.get("type"), str) and item["type"] in UNSUPPORTED:
                return "Unsupported", item["type"]
    if not isinstance(geometry, list) or not all(map(is_geometry, geometry)):
        return ("BadGeometry",)
    return None


def is_geometry(item):
    if not isinstance(item, dict) or not isinstance(item.get("type"), str) or item["type"] not in NESTING:
        return False
    return isinstance(item.get("lod"), str) and is_nested(item.get("boundaries"), NESTING[item["type"]])


def is_nested(value, depth):
    if depth == 0:
        return is_number(value)
    return isinstance(value, list) and all(is_nested(item, depth - 1) for item in value)


def leaves(value):
    if isinstance(value, list):
        for item in value:
            yield from leaves(item)
    else:
        yield value


def position_fault(obj, count):
    for item in obj.get("geometry", []):
        if any(not 0 <= position < count for position in leaves(item["boundaries"])):
            return ("BadVertex",)
    return None


def with_points(obj, vertices):
    """The object without relations, its positions replaced by points, which are tuples."""
    made = {name: value for name, value in obj.items() if name not in ("parents", "children")}
    made["geometry"] = [
        {**item, "boundaries": replaced(item["boundaries"], lambda position: tuple(vertices[position]))}
        for item in obj.get("geometry", [])
    ]
    return made


def replaced(value, new):
    return [replaced(item, new) for item in value] if isinstance(value, list) else new(value)


def parts_of(obj, nesting):
    """The parts of this nesting in the boundaries of an object; surfaces alone are in no shell."""
    for item in obj["geometry"]:
        if nesting < NESTING[item["type"]]:
            parts = item["boundaries"]
            for _ in range(NESTING[item["type"]] - nesting - 1):
                parts = [inner for part in parts for inner in part]
            yield from parts


def neighbours(ring):
    return list(zip(ring, ring[1:] + ring[:1]))


def has_short_ring(obj):
    return any(not surface or any(len(ring) < 3 for ring in surface) for surface in parts_of(obj, SURFACE))


def has_same_twice(obj):
    return any(a == b for surface in parts_of(obj, SURFACE) for ring in surface for a, b in neighbours(ring))


def ring_fault(obj):
    return ("BadRing",) if has_short_ring(obj) or has_same_twice(obj) else None


def shell_fault(obj):
    return ("OpenShell",) if has_open_shell(obj) else None


def has_open_shell(obj):
    return any(is_open(shell) for shell in parts_of(obj, SHELL))


def is_open(shell):
    edges = [edge for surface in shell for ring in surface for edge in neighbours(ring)]
    return len(set(edges)) != len(edges) or any((b, a) not in set(edges) for a, b in edges)


def lists_of(obj):
    lists = [obj.get(name, []) for name in ("parents", "children")]
    return [list(items) if are_texts(items) else [] for items in lists]


def relations_fault(objects, lists, name):
    obj, (parents, children) = objects[name], lists[name]
    family = FAMILY_OF[obj["type"]]
    wrong = not are_texts(obj.get("parents", [])) or not are_texts(obj.get("children", []))
    wrong = wrong or len(set(parents)) < len(parents) or len(set(children)) < len(children)
    wrong = wrong or name in parents
    wrong = wrong or any(parent not in lists or name not in lists[parent][1] for parent in parents)
    wrong = wrong or any(child not in lists or name not in lists[child][0] for child in children)
    if obj["type"] == family:
        wrong = wrong or bool(parents)
    else:
        wrong = wrong or not parents or any(FAMILY_OF[objects[parent]["type"]] != family for parent in parents)
    return ("Relations",) if wrong else None


class Pool:
    """Numbers points in the order in which they are first met."""

    def __init__(self):
        self.numbers = {}

    def number(self, point):
        return self.numbers.setdefault(point, len(self.numbers))

    def points(self):
        return [list(point) for point in self.numbers]


def object_tree(obj, pool):
    made = {name: value for name, value in obj.items() if name not in ("geometry", "parents", "children")}
    if obj["geometry"]:
        made["geometry"] = [{**item, "boundaries": replaced(item["boundaries"], pool.number)} for item in obj["geometry"]]
    for name in ("parents", "children"):
        if obj[name]:
            made[name] = obj[name]
    return made


def city_text(frame, city):
    pool = Pool()
    objects = {name: object_tree(city[name], pool) for name in sorted(city)}
    return print_tree({**frame, "CityObjects": objects, "vertices": pool.points()})
