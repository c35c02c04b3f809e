"""The parts of random cases: runs and files, the dice, bindings."""

import random
from dataclasses import dataclass

from rescue_map import text_of
from strange_words import LEAF_NAMES, STRANGE_NUMBERS
from tables import PREFIX


@dataclass
class Run:
    """One call of the program: its words and its standard input, which of a client are its messages.

    Each cut has a number of lines of input, and the name and the size of a file that is cut short behind them."""
    words: list
    given: bytes = b""
    messages: tuple = ()
    cuts: tuple = ()

    def __post_init__(self):
        if self.messages:
            self.given = b"".join(message.encoded() for message in self.messages)

    def input_texts(self):
        """The input as lines to be shown."""
        if self.messages:
            return [message.text().encode() for message in self.messages]
        lines = self.given.split(b"\n") if self.given else []
        for line, name, size in sorted(self.cuts, reverse=True):
            lines.insert(line, b"[now %s has %d bytes]" % (name, size))
        return lines


@dataclass
class Case:
    """Files by name (bytes, `directory`, `pipe`, or `link` or `symlink` and a name), runs."""
    files: dict
    runs: list


def nodes(files):
    """The files of a case as the model keeps them."""
    made = {}
    for name, content in files.items():
        if isinstance(content, bytes):
            made[name] = bytearray(content)
        elif content in ("directory", "pipe"):
            made[name] = content
    for name, content in files.items():
        if isinstance(content, tuple) and content[1] in made:
            made[name] = made[content[1]]
    return made


class Dice:
    """Draws the parts of one case, and keeps the files that they name."""

    def __init__(self, seed, features):
        self.random = random.Random(seed)
        self.features = features
        self.files = {}

    def chance(self, share):
        return self.random.random() < share

    def pick(self, choices):
        return self.random.choice(choices)

    def below(self, most):
        """A number from 0 to most, its ends often."""
        if self.chance(0.4):
            return self.pick([0, most])
        return self.random.randint(0, most)

    def has(self, kind, name):
        """Whether a part is to be used: seldom, where the program hasn't got it."""
        return self.chance(1.0 if name in self.features[kind] else 0.04)

    def decimal(self, value):
        return b"%s%d" % (b"0" * self.pick([0] * 12 + [1, 3]), value)

    def space(self):
        return self.pick([b"", b"", b"", b"", b"", b" ", b"\t", b"  ", b"\r"])

    def content(self, sectors):
        """Whole sectors: of one byte each, or of any bytes."""
        parts = []
        for _ in range(sectors):
            one = bytes([self.random.randrange(256)]) * 512
            parts.append(one if self.chance(0.7) else self.random.randbytes(512))
            if self.chance(0.1):
                parts[-1] = one[:511] + b"\xee" if self.chance(0.5) else b"\xee" + one[1:]
        return b"".join(parts)

    def sectors(self):
        draw = self.random.random()
        if draw < 0.5:
            return self.random.randint(1, 16)
        if draw < 0.8:
            return self.random.randint(17, 64)
        return self.pick([127, 128, 129, 200, 256, 257, 300, 1000, 2047, 2048, 2049, 2500, 65535, 65536])

    def new_file(self, content, stem=b"f"):
        name = stem + b"%d" % len(self.files)
        self.files[name] = content
        return name

    def bindings(self):
        words = []
        for name in self.random.sample(LEAF_NAMES, self.random.randint(1, 4)):
            if self.chance(0.65):
                kind = b"ramp" if self.chance(0.7) else b"zero"
                words.append(b"%s=%s:%d" % (name, kind, self.sectors()))
            else:
                content = self.content(self.random.randint(0, 24))
                if self.chance(0.3):
                    content += self.random.randbytes(self.random.randint(1, 511))
                path = self.new_file(content)
                kind = b"ro" if self.chance(0.4) else b"rw"
                words.append(b"%s=%s:%s" % (name, kind, path))
                if self.has("forms", "parts") and self.chance(0.3):
                    words[-1:] = self.parts(name, path, len(content) // 512)
                elif self.has("forms", "bound-maps") and self.chance(0.15):
                    words[-1:] = self.mapped(name, path, len(content) // 512)
        if self.chance(0.04):
            self.spoil_bindings(words)
        return words

    def parts(self, name, path, sectors):
        """A part of a file, or two that mostly lie beside each other."""
        cut = self.random.randint(1, max(1, sectors - 1))
        places = [(0, cut), (cut, sectors - cut)]
        if self.chance(0.15):
            first = self.below(sectors)
            places[1] = (first, self.pick([0, 1, sectors - first, sectors - first + 1]))
        if sectors < 2 or self.chance(0.4):
            places = [self.pick(places)]
        names = [name] + [b"%s2" % name[:200]]
        kinds = [b"ro" if self.chance(0.4) else b"rw" for _ in places]
        return [b"%s=%s@%d+%d:%s" % (one, kind, *place, path) for one, kind, place in zip(names, kinds, places)]

    def mapped(self, name, path, sectors):
        """A file, or a part of it, with a map that lacks some of its sectors, mostly few; seldom one of another size, or none. Seldom
        the map is bound too."""
        place = b""
        if self.has("forms", "parts") and self.chance(0.3):
            place = b"@%d+%d" % (self.below(sectors), self.pick([1, sectors // 2 + 1]))
        sectors += self.pick([-1, 1]) if self.chance(0.05) else 0
        had = self.pick([0.5, 0.9, 1])
        text = text_of([self.chance(had) for _ in range(sectors)], self.chance(0.2))
        if self.chance(0.05):
            text = text[:self.below(len(text))]
        if self.chance(0.9):
            return [b"%s=ro%s%%%s:%s" % (name, place, self.new_file(text, b"m"), path)]
        map_file = self.new_file(text + b"\n" + b"#" * 512, b"m")
        words = [b"%s=ro%s%%%s:%s" % (name, place, map_file, path), b"%s3=%s:%s" % (name[:200], self.pick([b"ro", b"rw"]), map_file)]
        self.random.shuffle(words)
        return words

    def spoil_bindings(self, words):
        """Puts one binding in that may be refused, or is at the edge of it."""
        kind = self.random.randrange(8)
        if kind == 0:
            words.append(self.pick(words))
        elif kind == 1:
            words[:] = [b"L%d=zero:1" % at for at in range(self.pick([63, 64, 65]))]
        elif kind == 2:
            words.append(self.pick([b"n" * 256, b"n" * 255, b"", b"x,y", PREFIX + b"x", b"x y",
                                    b"x;y", b"x\\y", b"\xc3\xa9", b"\xff"]) + b"=zero:2")
        elif kind == 3:
            self.files.update({b"dir": "directory", b"pipe": "pipe"})
            path = self.pick([b"dir", b".", b"pipe", b"missing", b"", b"/dev/null", b"n" * 256,
                              b"dir/x", b"pipe/x", b"\xff"])
            words.append(b"K=%s:%s" % (self.pick([b"ro", b"rw"]), path))
        elif kind == 4:
            path = self.new_file(self.content(3))
            other = b"other"
            self.files[other] = (self.pick(["link", "symlink"]), path)
            for name, file in ((b"K", path), (b"M", self.pick([other, path, b"./" + path]))):
                words.append(b"%s=%s:%s" % (name, self.pick([b"ro", b"rw"]), file))
        elif kind == 5:
            words.append(b"K=%s:%s" % (self.pick([b"zero", b"ramp"]), self.pick(STRANGE_NUMBERS)))
        elif kind == 6:
            words.append(self.pick([b"K", b"K=", b"K=zero", b"K=Zero:1", b"=zero:1", b"K=x:y", b"K=ro",
                                    b"K:zero=1", b"K=ro=x:y", b""]))
        else:
            words.append(b"K=ro:a:b=c")
        self.random.shuffle(words)
