"""The tree of devices that `load --tree` prints."""

import re

from configuration import Leaf
from tables import Striped, Verity


def shown(path):
    """A path with each control character as `\\x` and two digits."""
    return re.sub(rb"[\x00-\x1f\x7f]", lambda found: b"\\x%02x" % found[0][0], path)


def offset(target, place):
    if isinstance(target, Verity):
        starts = (0, target.start * target.hash_block, target.parity.start * target.data_block if target.parity else 0)
        return starts[place] // 512
    return target.stripes[place][1] if isinstance(target, Striped) else target.offset


class Tree:
    """The devices, and the file of each leaf that is in one."""

    def __init__(self, configuration, bound_words):
        self.configuration = configuration
        self.files = {name: value[0] if isinstance(value, tuple) else value
                      for name, kind, value in bound_words if kind in (b"ro", b"rw")}
        self.lines, self.printed = [], set()

    def text(self):
        devices = self.configuration.devices.values()
        for device in sorted(devices, key=self.configuration.depth, reverse=True):
            if device.name not in self.printed:
                self.lines.append(self.facts(device))
                self.rows(device, b"")
        return self.lines

    @staticmethod
    def facts(lower):
        return b"%s sectors %d %s" % (lower.name, lower.sectors, b"rw" if lower.writable else b"ro")

    def rows(self, device, bars):
        self.printed.add(device.name)
        rows = []
        for line in device.lines:
            names = line.target.lower()
            rows += [(line, place, self.configuration.lower(name)) for place, name in enumerate(names)] or [(line, 0, None)]
        for number, (line, place, lower) in enumerate(rows, 1):
            last = number == len(rows)
            self.row(bars + (b"`-" if last else b"|-"), line, place, lower)
            if lower and not isinstance(lower, Leaf) and not self.lines[-1].endswith(b" (above)"):
                self.rows(lower, bars + (b"  " if last else b"| "))

    def row(self, left, line, place, lower):
        kind = type(line.target).__name__.lower().encode()
        row = b"%s %d %d" % (kind, line.start, line.length)
        if lower:
            row = b"%s %s offset %d" % (self.facts(lower), row, offset(line.target, place))
        if isinstance(lower, Leaf):
            row += b" file " + shown(self.files[lower.name]) if lower.name in self.files else b""
        elif lower and lower.name in self.printed:
            row += b" (above)"
        self.lines.append(left + row)
