"""Random disks with a GUID partition table, of which one or both copies may be changed."""

import struct
import zlib
from uuid import UUID

from partitions import KINDS
from pins import Pin
from random_parts import Run
from random_trees import Planted, Trees
from verity import read_superblock

LABELS = ["", "a", "system", "p1", "p2", "p9", "a b", "x/y", "\u00e9", "\U0001f600", "tab\there", "n" * 36, "\x7f", "-", "-x"]
OTHER = "01234567-89ab-cdef-0123-456789abcdef"


class Disks(Trees):
    def disk_case(self):
        size = self.pick([512, 512, 4096])
        root, parts = None, []
        if self.chance(0.5):
            root, parts = self.verity_parts(size)
        at = 64
        placed = []
        others = self.pick([63, 64, 65]) - len(parts) if self.chance(0.05) else self.random.randrange(4)
        for own, content in parts + [(self.random.randbytes(16), b"") for _ in range(others)]:
            at += self.pick([0, 0, 1, 5])
            count = max(1, -(-len(content) // size) + self.pick([0, 0, 0, 3]))
            placed.append((own, at, at + count - 1, content))
            at += count
        sectors = at + 64
        image = self.disk(size, sectors, placed)
        self.spoil_disk(image, size, sectors)
        self.files[b"disk"] = bytes(image)
        runs = [self.disk_run(size, root) for _ in range(self.pick([1, 2]))]
        if self.has("forms", "bound-partitions") and self.chance(0.4):
            runs.append(self.bound_run([str(UUID(bytes=own)).encode() for own, *_ in placed]))
        return runs

    def bound_run(self, uuids):
        """A device over the first sector of a partition of the disk, maybe beside another one."""
        others = [b"0", b"1", b"2", b"3", OTHER.encode(), *(label.encode() for label in LABELS)]
        named = [self.pick(uuids if uuids and self.chance(0.7) else others) for _ in range(self.pick([1, 1, 2]))]
        words = [b"%s=%s#%s:disk" % (name, self.pick([b"ro", b"rw"]), one) for name, one in zip((b"D", b"E"), named)]
        self.files[b"bound"] = b"v,,,ro,0 1 linear D 0\n"
        return Run(self.pick([[b"load", b"bound"], [b"cat", b"bound", b"v"]]) + words)

    def verity_parts(self, size):
        """A data partition and one of its tree, whose UUIDs are the halves of the root."""
        it = Planted(self)
        it.is_bare = False
        _, area, root = it.made()
        self.files[b"pin"] = self.pin(root, read_superblock(area))
        if self.chance(0.1):
            area[self.random.randrange(512)] ^= 1
        halves = [root[:16], root[16:]]
        if self.chance(0.1):
            halves[self.random.randrange(2)] = self.random.randbytes(16)
        parts = [(halves[0], b"".join(it.contents)), (halves[1], bytes(area))]
        if self.chance(0.1):
            parts.append((self.pick(halves), b""))
        for _ in range(self.pick([0, 0, 1, 2])):
            named = root if self.chance(0.8) else self.random.randbytes(32)
            parts.append((self.random.randbytes(16), self.pick([b'{"rootHash":"', b'{"rootHash": "']) + named.hex().encode() + b'"}'))
        self.random.shuffle(parts)
        return root, parts

    def pin(self, root, superblock):
        """The pin of an image, of which a value or the text may be changed."""
        if self.chance(0.1):
            superblock.blocks += self.pick([-1, 1])
        if self.chance(0.1):
            superblock.salt = self.random.randbytes(self.pick([0, 1, 32]))
        text = Pin(root, superblock.salt, superblock.data_block, superblock.hash_block, superblock.blocks).text()
        if self.chance(0.1):
            text = text.replace(*self.pick([(b"salt", b"salt "), (b"salt", b"sal"), (b"root", b"root 0"), (b" 1", b" 2"), (b"\n", b"\n\n")]))
        return text

    def disk(self, size, sectors, placed):
        count, entry = self.pick([(128, 128), (128, 128), (16, 256), (len(placed) or 1, 128)])
        array = bytearray(count * entry)
        numbers = sorted(self.random.sample(range(count), len(placed))) if count >= len(placed) else []
        if self.chance(0.2):
            self.random.shuffle(numbers)
        image = bytearray(size * sectors)
        for number, (own, first, last, content) in zip(numbers, placed):
            kind = UUID(self.pick([*KINDS, OTHER])).bytes_le
            label = self.pick(LABELS).encode("utf-16-le")[:72].ljust(72, b"\0")
            if self.chance(0.05):
                label = self.random.randbytes(72)
            array[number * entry:][:128] = b""
            octets = kind + UUID(bytes=own).bytes_le + struct.pack("<QQQ", first, last, 0) + label
            array[number * entry:number * entry + 128] = octets
            image[first * size:first * size + len(content)] = content
        self.spoil_entries(array, entry, sectors)
        taken = -(-len(array) // size)
        for own, other, at in ((1, sectors - 1, 2), (sectors - 1, 1, sectors - 1 - taken)):
            if own != 1:
                self.spoil_copy(array, entry)
            image[at * size:at * size + len(array)] = array
            header = self.header(own, other, at, (count, entry, zlib.crc32(array)), sectors, taken)
            image[own * size:own * size + 92] = header
        return image

    def header(self, own, other, at, entries, sectors, taken):
        fields = [b"EFI PART", 0x10000, 92, 0, 0, own, other, 2 + taken, sectors - 2 - taken, bytes(16), at, *entries]
        if self.chance(0.06):
            place, values = self.pick([(4, [1]), (6, [0, 2, own, sectors - 2, sectors, 2**64 - 1]), (9, [b"another disk's !"]),
                                       (7, [3 + taken]), (8, [sectors - 3 - taken])])
            fields[place] = self.pick(values)
        if self.chance(0.06):
            place, values = self.pick([(0, [b"EFI PARt"]), (1, [0, 0x10001]), (2, [91, 93, 512, 513]), (5, [0, 2]),
                                       (7, [0, sectors]), (8, [sectors, 0, 2**64 - 1]), (10, [0, 1, own, sectors, 2**64 - 1]),
                                       (11, [0, 1, 2**32 - 1]), (12, [0, 64, 192, 2**31])])
            fields[place] = self.pick(values)
        made = struct.pack("<8sIIIIQQQQ16sQIII", *fields)
        length = fields[2] if fields[2] > 92 else 92
        return made[:16] + struct.pack("<I", zlib.crc32(made.ljust(length, b"\0"))) + made[20:]

    def spoil_entries(self, array, entry, sectors):
        """Under a right checksum: partitions that lie over each other, end before they begin, or aren't usable."""
        if not self.chance(0.15):
            return
        at = self.random.randrange(len(array) // entry) * entry
        first = self.random.randrange(sectors + 2)
        last = first + self.pick([-1, 0, 3, 2**63])
        array[at:at + 48] = UUID(OTHER).bytes_le * 2 + struct.pack("<QQ", first, max(0, last))

    def spoil_copy(self, array, entry):
        """The entries of the backup, which may differ from those of the primary copy under a right checksum."""
        if self.chance(0.08):
            array[self.random.randrange(len(array) // entry) * entry + self.pick([48, 56, 57, 127])] ^= 1

    def spoil_disk(self, image, size, sectors):
        for _ in range(self.pick([0, 0, 0, 0, 1, 2])):
            sector = self.pick([1, 2, sectors - 1, sectors - 2])
            image[sector * size + self.random.randrange(92)] ^= 1 << self.random.randrange(8)
        if self.chance(0.05):
            del image[self.pick([0, 512, 1023, 1024, size * 2, len(image) - 1, len(image) - size]):]
        elif self.chance(0.1):
            del image[self.random.randrange(len(image)):]

    def disk_run(self, size, root):
        words = [b"--sector-size", b"%d" % size] if self.chance(0.5 if size != 512 else 0.2) else []
        if self.chance(0.05):
            words = [b"--sector-size=%d" % self.pick([512, 4096, 1024, 0])]
        form = self.random.randrange(4)
        if form == 1:
            words.append(b"--stack")
        elif form == 2 and b"pin" in self.files and self.chance(0.5):
            words += [b"--pin", self.pick([b"pin"] * 9 + [b"disk"])]
        elif form == 2:
            word = root or self.random.randbytes(32)
            words += [b"--root", word.hex().encode()]
        elif self.has("forms", "json") and self.chance(0.5):
            words.append(b"--json")
        if self.chance(0.03):
            words.append(b"--stack")
        if self.chance(0.2 if form in (1, 2) else 0.03):
            words.append(b"--writable")
        if self.has("forms", "fec") and self.chance(0.4 if form == 2 else 0.03):
            words += [b"--fec", self.pick([b"1", b"2", b"3", b"3", b"4", b"0", b"a", b"x/y", b"", OTHER.encode()])]
        if self.has("forms", "fec") and self.chance(0.1 if b"--fec" in words else 0.01):
            words.append(b"--fec-roots=%d" % self.pick([1, 2, 3, 24, 25]))
        return Run([b"partitions"] + words + [self.pick([b"disk"] * 15 + [b"missing", b"."])])
