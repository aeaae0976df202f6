"""What an ELF file of 64 bits says of the machine that it is for, and of the libraries that it needs."""

import struct

from source import Stop

MACHINES = {62: "amd64", 183: "arm64"}  # by Debian's names
DYNAMIC, LOADED = 2, 1  # kinds of segments
NEEDED, TEXTS, VERSIONS, VERSION_COUNT = 1, 5, 0x6FFFFFFE, 0x6FFFFFFF  # kinds of dynamic entries


class Elf:
    """A file, in its segments."""

    def __init__(self, data, name):
        if data[:6] != b"\x7fELF\x02\x01":
            raise Stop(f"{name} is no program of 64 bits")
        self.data, self.name = data, name
        start, size, count = (*struct.unpack_from("<Q", data, 32), *struct.unpack_from("<HH", data, 54))
        # of each segment: kind, place in the file, address, size in the file
        parts = [struct.unpack_from("<IIQQQQ", data, start + at * size) for at in range(count)]
        self.segments = [(kind, place, address, length) for kind, _, place, address, _, length in parts]

    @property
    def machine(self):
        """Debian's name of the machine."""
        number = struct.unpack_from("<H", self.data, 18)[0]
        if number not in MACHINES:
            raise Stop(f"{self.name} is no program for {' or '.join(MACHINES.values())}")
        return MACHINES[number]

    def place(self, address):
        """Where an address stands in the file."""
        for kind, place, start, length in self.segments:
            if kind == LOADED and start <= address < start + length:
                return place + address - start
        raise Stop(f"{self.name} is an odd program: nothing is at {address:#x}")

    def text(self, place):
        return self.data[place : self.data.index(b"\0", place)].decode()

    def dynamic(self):
        """The dynamic entries: kinds and values."""
        for kind, place, _, length in self.segments:
            if kind == DYNAMIC:
                return list(struct.iter_unpack("<QQ", self.data[place : place + length]))
        return []

    def needs(self):
        """The libraries that are needed, each with the versions of its symbols."""
        entries = self.dynamic()
        by_kind = dict(entries)
        if TEXTS not in by_kind:
            return {}
        texts = self.place(by_kind[TEXTS])
        found = {self.text(texts + value): set() for kind, value in entries if kind == NEEDED}
        at = self.place(by_kind[VERSIONS]) if VERSIONS in by_kind else 0
        for _ in range(by_kind.get(VERSION_COUNT, 0)):
            _, count, file, first, behind = struct.unpack_from("<HHIII", self.data, at)
            one = at + first
            for _ in range(count):
                _, _, _, name, further = struct.unpack_from("<IHHII", self.data, one)
                found.setdefault(self.text(texts + file), set()).add(self.text(texts + name))
                one += further
            at += behind
        return found


def number_of(version):
    """A version as numbers, by which versions are compared."""
    return [int(it) for it in version.split(".")]


def depends(elf):
    """The Debian packages that a program needs."""
    found = []
    for library, versions in elf.needs().items():
        if library != "libc.so.6":
            raise Stop(f"{elf.name} needs {library}, and it isn't known which package has it")
        numbers = [it.removeprefix("GLIBC_") for it in versions if it[len("GLIBC_") :].replace(".", "").isdigit()]
        found.append(f"libc6 (>= {max(numbers, key=number_of)})" if numbers else "libc6")
    return ", ".join(found)
