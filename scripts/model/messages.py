"""The messages of a client of the NBD protocol, as cases keep them: field by field, and smaller ones of each."""

import struct
from dataclasses import dataclass, replace

OPTION_MAGIC, REQUEST_MAGIC = b"IHAVEOPT", 0x25609513
OPTIONS = {1: "EXPORT_NAME", 2: "ABORT", 3: "LIST", 6: "INFO", 7: "GO", 8: "STRUCTURED_REPLY", 9: "LIST_META_CONTEXT",
           10: "SET_META_CONTEXT"}
COMMANDS = {0: "READ", 1: "WRITE", 2: "DISC", 3: "FLUSH", 4: "TRIM", 5: "CACHE", 6: "WRITE_ZEROES",
            7: "BLOCK_STATUS"}


def smaller_numbers(value):
    """Numbers below one, the least first; also those at the same place of a sector."""
    tried = [0, 1, value % 512, 512 + value % 512, value // 1024 * 512 + value % 512, value // 2, value - 512, value - 1]
    return [one for one in dict.fromkeys(tried) if 0 <= one < value]


def smaller_octets(octets):
    half = len(octets) // 2
    sizes = [0, 1, 512, half, half // 512 * 512, len(octets) - 512, len(octets) - 1]
    found = [octets[:size] for size in dict.fromkeys(sizes) if 0 <= size < len(octets)]
    return found + ([octets[:1] * len(octets)] if octets != octets[:1] * len(octets) else [])


@dataclass(frozen=True)
class Octets:
    """Bytes as they are: flags, a message with something wrong in it, or a part of one."""
    octets: bytes

    def encoded(self):
        return self.octets

    def smaller(self):
        return [replace(self, octets=octets) for octets in smaller_octets(self.octets)]

    def text(self):
        return "bytes " + (self.octets.hex() if len(self.octets) < 40 else self.octets[:40].hex() + "..")


@dataclass(frozen=True)
class Option:
    number: int
    data: bytes = b""

    def encoded(self):
        return OPTION_MAGIC + struct.pack(">II", self.number, len(self.data)) + self.data

    def smaller(self):
        return [replace(self, data=data) for data in smaller_octets(self.data)]

    def text(self):
        name = OPTIONS.get(self.number, "%d" % self.number)
        return "option %s with %d bytes %r" % (name, len(self.data), self.data[:60])


@dataclass(frozen=True)
class Request:
    """A request; `length` is None where it is that of the data."""
    command: int
    offset: int = 0
    length: int = None
    data: bytes = b""
    cookie: int = 0
    flags: int = 0

    def encoded(self):
        length = len(self.data) if self.length is None else self.length
        fields = (REQUEST_MAGIC, self.flags, self.command, self.cookie, self.offset, length)
        return struct.pack(">IHHQQI", *fields) + self.data

    def smaller(self):
        found = [replace(self, data=data) for data in smaller_octets(self.data)]
        for name in ("length", "offset", "cookie", "flags"):
            value = getattr(self, name)
            found += [replace(self, **{name: less}) for less in smaller_numbers(value or 0)]
        return found

    def text(self):
        name = COMMANDS.get(self.command, "%d" % self.command)
        length = len(self.data) if self.length is None else self.length
        rest = "".join(" %s %d" % (field, getattr(self, field)) for field in ("cookie", "flags") if getattr(self, field))
        return "%s %d %d%s%s" % (name, self.offset, length, rest, " %r" % self.data[:20] if self.data else "")


def information(name, facts):
    """The data of INFO and GO."""
    return struct.pack(">I", len(name)) + name + struct.pack(">H%dH" % len(facts), len(facts), *facts)


def queries(name, wanted):
    """The data of LIST_META_CONTEXT and SET_META_CONTEXT: of that export, what is queried."""
    asked = b"".join(struct.pack(">I", len(one)) + one for one in wanted)
    return struct.pack(">I", len(name)) + name + struct.pack(">I", len(wanted)) + asked
