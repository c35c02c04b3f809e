"""Files as commands open them, and the line that ends a command."""

import re

from stack import SECTOR

REFUSED = 1
OPENING_FAULTS = ["NotFound", "NotAllowed", "TooLarge", "OtherFault", "NoMemory", "SameFile", "InUse"]
LONGEST_NAME = 255
# A new text is written under this name beside the file that it replaces.
BESIDE = b".dmstack-new"
WHOLE = (0, 2**64)
OUTSIDE = b"refused 23 OutsideFile "


class Stop(Exception):
    """The one line that ends a command, with the status."""

    def __init__(self, line, status=REFUSED):
        super().__init__(line)
        self.line, self.status = line, status


class Noted(list):
    """Lines of the output, beside lines of warnings on standard error."""

    def __init__(self, lines, warnings):
        super().__init__(lines)
        self.warnings = warnings


def shown(path):
    """A path as it is printed: of control characters their numbers."""
    return re.sub(rb"[\x00-\x1f\x7f]", lambda found: b"\\x%02x" % found[0][0], path)


def not_opened(kind, path):
    place = OPENING_FAULTS.index(kind) + 1
    return Stop(b"refused %d %s %s" % (place, kind.encode(), shown(path)))


def is_apart(part, other):
    """Whether two parts of a file have no sector in common; all of a file meets each part of it, an empty one too."""
    is_disjoint = part[0] + part[1] <= other[0] or other[0] + other[1] <= part[0]
    return is_disjoint and WHOLE not in (part, other)


class Files:
    """A directory's files: bytearrays by path (two paths may share one), or other kinds.

    The other kinds are the words `directory`, `pipe`, `character`. Behind lines of a session files may be cut
    short: `cuts` has the number of lines, a name and a size, and `counts` gets the number of replies before each.
    What is open is kept with the first sector and the number of sectors of the part that is used. `random` draws
    bytes, where they may be drawn. `warnings` are the lines that a command prints on standard error while it runs."""

    random = None

    def __init__(self, nodes):
        self.nodes, self.opened, self.cuts, self.counts, self.warnings = nodes, [], (), [], []

    def cut_after(self, lines, replies):
        for line, name, size in self.cuts:
            if line == lines:
                self.counts.append(len(replies))
                if isinstance(self.nodes.get(name), bytearray):
                    del self.nodes[name][size:]

    def find(self, path):
        if path == b"/dev/null":
            return "character"
        if path in (b".", b"/", b".."):
            return "directory"
        if any(len(part) > LONGEST_NAME for part in path.split(b"/")):
            raise not_opened("OtherFault", path)
        name, slash, _ = path.removeprefix(b"./").partition(b"/")
        node = self.nodes.get(name)
        if node is None or slash and node == "directory":
            raise not_opened("NotFound", path)
        if slash:
            raise not_opened("OtherFault", path)
        return node

    def known(self, path):
        """The bytes of the file at a path, or None."""
        try:
            node = self.find(path)
        except Stop:
            return None
        return node if isinstance(node, bytearray) else None

    @staticmethod
    def same_name(path, other):
        return path.removeprefix(b"./") == other.removeprefix(b"./")

    @staticmethod
    def can_replace(path):
        """Whether a file can be made beside the one at a path."""
        name = path.removeprefix(b"./")
        return b"/" not in name and len(name + BESIDE) <= LONGEST_NAME

    def replace(self, path, text):
        """Replaces what the file at a path holds; another name of the file keeps what it held."""
        self.nodes[path.removeprefix(b"./")] = bytearray(text)

    def is_used(self, node, writable, part=WHOLE):
        """Whether these sectors of a file are in use, one of the two uses for writing."""
        return any(node is other and (writable or changing) and not is_apart(part, place)
                   for other, changing, place in self.opened)

    def make(self, path):
        """Makes an empty file where there is none."""
        try:
            self.find(path)
        except Stop:
            if not path or b"/" in path.removeprefix(b"./") or len(path) > LONGEST_NAME:
                raise
            self.nodes[path.removeprefix(b"./")] = bytearray()

    def image(self, path, writable, part=WHOLE):
        """The bytes of a file that is opened as an image, or is to be opened as a part of one."""
        node = self.find(path)
        if not isinstance(node, bytearray):
            raise not_opened("OtherFault", path)
        if part != WHOLE and sum(part) > len(node) // SECTOR:
            raise Stop(OUTSIDE + shown(path))
        self.take(node, writable, part, path)
        return node

    def take(self, node, writable, part, path):
        """Uses these sectors of a file that a path or an argument names."""
        if self.is_used(node, writable, part):
            raise not_opened("SameFile", path)
        self.opened.append((node, writable, part))

    def text(self, path):
        """What a file holds that is read and closed."""
        node = self.find(path)
        if node == "character":
            return bytearray()
        if not isinstance(node, bytearray):
            raise not_opened("OtherFault", path)
        return node

    def content(self, path):
        """What a file holds that is read as it is opened, and is only read."""
        node = self.text(path)
        self.opened.append((node, False, WHOLE))
        return node
