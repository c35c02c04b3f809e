"""Images as arguments name them: whole files, parts of files, partitions of disks."""

from dataclasses import dataclass

from files import OUTSIDE, WHOLE, Stop, not_opened
from partitions import is_sound, only_named, table_of
from session import Usage
from stack import SECTOR
from tables import number
from words import sectors_of, uuid_of

MISSING = b"refused 1 "


@dataclass
class Place:
    """A file, and the first sector and the number of sectors of the part that is used."""

    node: bytearray
    part: tuple

    def image(self):
        """The bytes of the part, which may be written but not made longer."""
        if self.part == WHOLE:
            return self.node
        first, count = self.part
        return memoryview(self.node)[first * SECTOR:(first + count) * SECTOR]

    def sectors(self):
        return len(self.image()) // SECTOR

    def within(self, first, count):
        """A part of this part, in sectors of the file."""
        return (self.part[0] if self.part != WHOLE else 0) + first, count


def uuid_in(word):
    try:
        return uuid_of(word) if len(word) == 36 else None
    except Usage:
        return None


def named_part(text):
    """The path and the sectors of `FILE@FIRST+COUNT`, or the path and the word of `FILE#PARTITION`; None if it is neither."""
    path, sign, place = text.rpartition(b"@")
    if sign:
        try:
            return path, sectors_of(place)
        except Usage:
            pass
    path, sign, word = text.rpartition(b"#")
    if not sign or not word or number(word) is None and uuid_in(word) is None and b"/" in word:
        return None
    return path, word


def partition_part(files, path, word, writable):
    """The sectors of the only partition of that number, UUID or label, which is written by a sound table alone."""
    node = files.find(path)
    if not isinstance(node, bytearray):
        raise not_opened("OtherFault", path)
    try:
        table = table_of(bytes(node), SECTOR)
    except Stop:
        raise not_opened("NotFound", path) from None
    found = only_named(table, word)
    if found is None:
        raise not_opened("NotFound", path)
    if writable and not is_sound(bytes(node), table):
        raise not_opened("NotAllowed", path)
    unit = table.size // SECTOR
    return found.first * unit, found.count * unit


def open_place(files, text, writable, is_written=False):
    """The place that an argument names; a file of that whole name comes first. Some are written though they are in use as read ones."""
    try:
        return Place(files.image(text, writable), WHOLE)
    except Stop as stop:
        named = named_part(text)
        if not stop.line.startswith(MISSING) or named is None:
            raise
    path, part = named
    try:
        part = part if isinstance(part, tuple) else partition_part(files, path, part, writable or is_written)
        return Place(files.image(path, writable, part), part)
    except Stop as stop:
        kind = "NotFound" if stop.line.startswith(OUTSIDE) else stop.line.split(b" ")[2].decode()
        raise not_opened(kind, text) from None


def grow_place(files, text, sectors):
    """Makes the file that an argument names at least so long; one that isn't there is made. A part of a file keeps its size."""
    try:
        files.find(text)
    except Stop as stop:
        if not stop.line.startswith(MISSING):
            raise
        if named_part(text) is not None:
            return
    grow_file(files, text, sectors)


def grow_file(files, path, sectors):
    """Makes the file under a path at least so long; one that isn't there is made."""
    try:
        node = files.find(path)
    except Stop as stop:
        if not stop.line.startswith(MISSING):
            raise
        files.make(path)
        node = files.find(path)
    if isinstance(node, bytearray):
        node.extend(bytes(max(0, sectors * SECTOR - len(node))))


def shrink_place(files, text, sectors):
    """Makes the file that an argument names at most so long. A part of a file keeps its size."""
    try:
        node = files.find(text)
    except Stop as stop:
        if not stop.line.startswith(MISSING) or named_part(text) is None:
            raise
        return
    if isinstance(node, bytearray):
        del node[sectors * SECTOR:]
