#!/usr/bin/env python3
"""The content of two leaves when a call of a request fails, by a model of its own and OpenSSL's AES-XTS.

failing_writes.py FOLDER: writes cases of scripts/gate/failing_calls into FOLDER, each with its file `calls`: for each call in turn
which it is, of which leaf, how many sectors were read and written by then, and the sums of A and of B where it fails. Of crypt
lines a unit that is covered whole is encrypted and put; of one that is covered in part, all is read, changed and put. Units go
down one by one, and those of which no end lies within a unit beneath in one call of a leaf. In the end the leaves that were
written are synced, in order.
"""
import os
import pathlib
import sys

sys.dont_write_bytecode = True
sys.path.insert(0, os.path.join(os.path.dirname(os.path.realpath(__file__)), "../lib"))
import openssl_xts

SECTOR = 512
SHORT = bytes(range(32))
LONG = bytes(255 - k for k in range(64))


def sum_of(leaf):
    """FNV-1a in 32 bits."""
    it = 0x811C9DC5
    for byte in b"".join(leaf.sectors):
        it = (it ^ byte) * 0x01000193 % 2**32
    return it


class Leaf:
    """Sectors that each hold their number, or zeros, and the calls so far."""

    def __init__(self, name, log, count, ramp):
        self.name, self.log, self.sectors = name, log, [bytes([k if ramp else 0]) * SECTOR for k in range(count)]

    def read(self, s, n):
        self.log.append((self, "read", n))
        return self.sectors[s : s + n]

    def put(self, s, sectors):
        self.log.append((self, "write", len(sectors)))
        self.sectors[s : s + len(sectors)] = sectors

    def ends(self, s):
        """Whether a put may be cut before sector s."""
        return True


class Striped:
    def __init__(self, chunk, *bases):
        self.chunk, self.bases = chunk, bases

    def parts(self, s, n):
        while n:
            k, within = divmod(s, self.chunk)
            below, offset = self.bases[k % len(self.bases)]
            count = min(n, self.chunk - within)
            yield below, offset + k // len(self.bases) * self.chunk + within, count
            s, n = s + count, n - count

    def read(self, s, n):
        return [it for below, at, count in self.parts(s, n) for it in below.read(at, count)]

    def put(self, s, sectors):
        done = 0
        for below, at, count in self.parts(s, len(sectors)):
            below.put(at, sectors[done : done + count])
            done += count

    def ends(self, s):
        below, at, _ = next(self.parts(s, 1))
        return s % self.chunk == 0 or below.ends(at)


class Crypt:
    def __init__(self, key, iv_offset, below, offset, unit, large=False):
        self.key, self.iv_offset, self.below, self.offset = key, iv_offset, below, offset
        self.unit, self.large = unit, large

    def turned(self, s, sectors, encrypt):
        """Whole units from sector s on, encrypted or decrypted."""
        u, out = self.unit, []
        for k in range(0, len(sectors), u):
            number = (s + k + self.iv_offset) % 2**64
            number = number // u if self.large else number
            data = openssl_xts.unit(self.key, number, b"".join(sectors[k : k + u]), encrypt)
            out += [data[SECTOR * j : SECTOR * (j + 1)] for j in range(u)]
        return out

    def parts(self, s, n):
        while n:
            whole = s % self.unit == 0 and n >= self.unit
            count = n // self.unit * self.unit if whole else min(n, self.unit - s % self.unit)
            yield s, count, whole
            s, n = s + count, n - count

    def whole(self, s):
        """The unit with sector s, read."""
        begin = s // self.unit * self.unit
        return begin, self.turned(begin, self.below.read(self.offset + begin, self.unit), False)

    def read(self, s, n):
        out = []
        for at, count, whole in self.parts(s, n):
            if whole:
                out += self.turned(at, self.below.read(self.offset + at, count), False)
            else:
                begin, sectors = self.whole(at)
                out += sectors[at - begin : at - begin + count]
        return out

    def put_units(self, s, sectors):
        sectors, at, u = self.turned(s, sectors, True), self.offset + s, self.unit
        if all(self.below.ends(at + k) for k in range(u, len(sectors), u)):
            self.below.put(at, sectors)
        else:
            for k in range(0, len(sectors), u):
                self.below.put(at + k, sectors[k : k + u])

    def put(self, s, sectors):
        first = s
        for at, count, whole in self.parts(s, len(sectors)):
            new = sectors[at - first : at - first + count]
            if whole:
                self.put_units(at, new)
            else:
                begin, unit = self.whole(at)
                unit[at - begin : at - begin + count] = new
                self.put_units(begin, unit)

    def ends(self, s):
        return s % self.unit == 0


class Failed(Exception):
    pass


class Log(list):
    """Calls, of which the k-th fails: what it was asked for isn't done."""

    def __init__(self, k):
        super().__init__()
        self.k = k

    def append(self, it):
        super().append(it)
        if len(self) == self.k:
            raise Failed


def ended(case, k):
    """The leaves and the calls, where the k-th call fails, and with it the request that it is made for."""
    log = Log(k)
    a, b = (Leaf(name, log, case.size, case.ramp) for name in "AB")
    for request in case.requests(a, b):
        try:
            request()
        except Failed:
            pass
    for leaf in (a, b):
        if any(it[:2] == (leaf, "write") for it in log):
            list.append(log, (leaf, "sync", 0))
    return a, b, log


def calls(case):
    """The lines of the file `calls`."""
    for k in range(1, len(ended(case, 0)[2]) + 1):
        a, b, log = ended(case, k)
        leaf, call, _ = log[k - 1]
        moved = (sum(n for _, it, n in log[:k] if it == kind) for kind in ("read", "write"))
        yield " ".join([call, leaf.name, *map(str, moved), f"{sum_of(a):08x}", f"{sum_of(b):08x}"])


class Write:
    """Sectors, each filled with one byte, that `write` puts to the device `a` of a stack of two leaves."""

    def __init__(self, about, text, make, first, sectors, size=32, ramp=True):
        self.about, self.text, self.make, self.first, self.sectors = about, text, make, first, sectors
        self.size, self.ramp = size, ramp

    def requests(self, a, b):
        return [lambda: self.make(a, b).put(self.first, [it.encode() * SECTOR for it in self.sectors])]

    def files(self):
        filled = "bytes([k])" if self.ramp else "bytes(1)"
        what = "Sector k of each leaf is filled with the byte k" if self.ramp else "The leaves are zeros"
        yield "args", f"write\nstack\na\n{self.first}\nsource\nA=rw:a\nB=rw:b\n"
        yield "before", (
            f"# {self.about} {what}.\necho '{self.text}' > stack\npython3 - << 'END'\nfor name in \"ab\":\n"
            f"    open(name, \"wb\").write(b\"\".join({filled} * 512 for k in range({self.size})))\n"
            f"open(\"source\", \"wb\").write(b\"\".join(bytes([k]) * 512 for k in b\"{self.sectors}\"))\nEND\n"
        )


class LinearPieces:
    """A session over linear lines: a run of a line over a leaf is one call, whatever its length, and so is its sync."""

    size, ramp = 128, True

    def requests(self, a, b):
        put = lambda leaf, first, n, byte: lambda: leaf.put(first, [bytes([byte]) * SECTOR] * n)
        yield put(a, 2, 2, 0x31)
        yield lambda: a.read(0, 8)
        yield put(a, 2, 2, 0x32)
        yield put(b, 0, 128, 0x33)
        yield put(b, 0, 128, 0x34)
        yield lambda: b.read(0, 128)
        yield lambda: b.read(0, 128)
        for _ in range(2):
            # two pieces
            yield lambda: (a.read(3, 1), b.read(4, 1))

    def files(self):
        yield "args", "session\nA=rw:a\nB=rw:b\n"
        yield "before", (
            "# Sector k of each leaf is filled with the byte k.\npython3 - << 'END'\nfor name in \"ab\":\n"
            "    open(name, \"wb\").write(b\"\".join(bytes([k]) * 512 for k in range(128)))\nEND\n"
        )
        lines = ["load a,,,rw,0 8 linear A 0;b,,,rw,0 128 linear B 0;c,,,ro,0 4 linear A 0,4 4 linear B 4"]
        lines += ["write a 2 2 31", "moved", "read a 0 8", "write a 2 2 32", "moved", "write b 0 128 33", "write b 0 128 34"]
        lines += ["read b 0 128", "read b 0 128", "read c 3 2", "moved", "read c 3 2", "moved"]
        yield "stdin", "\n".join(lines) + "\n"


def crypt(key, iv_offset, device, offset, *options):
    words = [key.hex(), str(iv_offset), device, str(offset)] + ([str(len(options)), *options] if options else [])
    return "crypt aes-xts-plain64 " + " ".join(words)


EIGHT, FOUR, TWO = ("sector_size:" + it for it in ("4096", "2048", "1024"))
LARGE = "iv_large_sectors"
CASES = {
    "units_in_part": Write(
        "Units of eight sectors on a leaf, the first and the last covered in part.",
        f"a,,,rw,0 24 {crypt(SHORT, 8, 'A', 1, EIGHT)}",
        lambda a, b: Crypt(SHORT, 8, a, 1, 8), 3, "ABCDEFGHIJKLMNOPQR"),
    "units_over_smaller": Write(
        "The same over units of two sectors.",
        f"m,,,rw,0 24 {crypt(SHORT, 2, 'A', 0, TWO)};a,,,rw,0 24 {crypt(LONG, 0, '/dev/mapper/m', 0, EIGHT, LARGE)}",
        lambda a, b: Crypt(LONG, 0, Crypt(SHORT, 2, a, 0, 2), 0, 8, True), 3, "ABCDEFGHIJKLMNOPQR"),
    "units_over_larger": Write(
        "Units of two sectors over units of eight.",
        f"m,,,rw,0 16 {crypt(SHORT, 0, 'A', 0, EIGHT)};a,,,rw,0 16 {crypt(LONG, 4, '/dev/mapper/m', 0, TWO)}",
        lambda a, b: Crypt(LONG, 4, Crypt(SHORT, 0, a, 0, 8), 0, 2), 1, "ABCDEF"),
    "units_across": Write(
        "Units of two sectors, some of which lie in two units of four.",
        f"m,,,rw,0 12 {crypt(SHORT, 4, 'A', 2, FOUR, LARGE)};a,,,rw,0 10 {crypt(LONG, 2, '/dev/mapper/m', 1, TWO)}",
        lambda a, b: Crypt(LONG, 2, Crypt(SHORT, 4, a, 2, 4, True), 1, 2), 1, "ABCD"),
    "units_over_stripes": Write(
        "Units of eight sectors over chunks of four.",
        f"s,,,rw,0 24 striped 2 4 A 0 B 3;a,,,rw,0 24 {crypt(SHORT, 16, '/dev/mapper/s', 0, EIGHT)}",
        lambda a, b: Crypt(SHORT, 16, Striped(4, (a, 0), (b, 3)), 0, 8), 2, "ABCDEFGHIJKLMNO"),
    "stripes": Write(
        "There is a call for each chunk.",
        "a,,,rw,0 8 striped 2 2 A 0 B 4",
        lambda a, b: Striped(2, (a, 0), (b, 4)), 0, "12345678", size=128, ramp=False),
    "crypt_over_stripes": Write(
        "Encrypted over striped over encrypted devices: the calls go to B, A, B and A, each of one sector.",
        f"x,,,rw,0 4 {crypt(SHORT, 5, 'A', 0)};y,,,rw,0 4 {crypt(LONG, 2**64 - 1, 'B', 1)};"
        f"s,,,rw,0 8 striped 2 1 /dev/mapper/x 0 /dev/mapper/y 0;a,,,rw,0 8 {crypt(LONG, 2**64 - 2, '/dev/mapper/s', 0)}",
        lambda a, b: Crypt(LONG, 2**64 - 2, Striped(1, (Crypt(SHORT, 5, a, 0, 1), 0), (Crypt(LONG, 2**64 - 1, b, 1, 1), 0)), 0, 1),
        1, "1234", size=8, ramp=False),
    "linear_pieces": LinearPieces(),
}


def main():
    for name, case in CASES.items():
        folder = pathlib.Path(sys.argv[1]) / name
        folder.mkdir(exist_ok=True)
        for file, text in [*case.files(), ("calls", "\n".join(calls(case)) + "\n")]:
            (folder / file).write_text(text)


main()
