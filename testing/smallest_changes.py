"""The smallest changes of a value: one digit, one form of a number, one name, one order, one member or item."""

from number_texts import Members, Number


def changes_of(value):
    """Gives the value with one change each, at every place."""
    yield from changes_here(value)
    if isinstance(value, list):
        for at, item in enumerate(value):
            for changed in changes_of(item):
                yield value[:at] + [changed] + value[at + 1 :]
    elif isinstance(value, Members):
        for at, (name, item) in enumerate(value.pairs):
            for changed in changes_of(item):
                yield with_pair(value, at, (name, changed))


def with_pair(value, at, *pairs):
    return Members(value.pairs[:at] + pairs + value.pairs[at + 1 :])


def changes_here(value):
    if isinstance(value, Number):
        yield from map(Number, numbers_near(value.text))
        yield value.text
        yield Members((("#", value.text),))
    elif isinstance(value, str):
        yield value + "\u0000"
        if value:
            yield value[:-1]
    elif isinstance(value, bool) or value is None:
        yield not value
        yield Number("1")
    elif isinstance(value, list):
        yield value + [None]
        yield [value]
        for at in range(len(value)):
            yield value[:at] + value[at + 1 :]
        yield from swapped(value, lambda items: items)
    else:
        yield from changed_members(value)


def numbers_near(text):
    """Numbers that are written with one digit more or another, or in another form."""
    for at, letter in enumerate(text):
        if letter.isdigit() and letter != "0":
            yield text[:at] + str(int(letter) % 9 + 1) + text[at + 1 :]
    yield text[1:] if text[0] == "-" else "-" + text
    if "e" not in text and "E" not in text:
        yield text + ("0" if "." in text else ".0")
        yield text + "e0"
    else:
        yield text.swapcase()


def swapped(items, made):
    for at, (first, second) in enumerate(zip(items, items[1:])):
        if first != second:
            yield made(items[:at] + type(items)((second, first)) + items[at + 2 :])


def changed_members(value):
    yield Members(value.pairs + (("", None),))
    yield from swapped(value.pairs, Members)
    for at, (name, item) in enumerate(value.pairs):
        yield with_pair(value, at)
        yield with_pair(value, at, (name + "x", item))
        yield with_pair(value, at, (name, item), (name, item))
