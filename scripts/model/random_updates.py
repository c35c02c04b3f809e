"""Random updates: an older image, a release that may be damaged, and other places that may lie."""

from files import Stop
from partitions import table_of
from random_disks import Disks
from random_parts import Run
from random_trees import Planted
from verity import Superblock, Tree


class Updates(Disks):
    def update_case(self):
        new = Planted(self)
        new.is_bare = False
        tree, area, root = new.made()
        whole = b"".join(new.contents)
        if self.chance(0.05) and tree.levels and Tree(new.data_block, new.hash_block, new.blocks - 1).levels == tree.levels:
            # the last used hash block holds more than its superblock and its pin count
            new.blocks -= 1
            area[:512] = Superblock(bytes(16), new.data_block, new.hash_block, new.blocks, new.salt).encode()
        self.files[b"pin"] = self.drawn_pin(new, root)
        release = self.image_of(b"new", whole, area, new, 0.3)
        copies = []
        for number in range(self.pick([0, 0, 0, 1, 1, 2])):
            copies += self.copy_of(b"copy%d" % number, whole, area, new)
        names = self.older(new, whole, area)
        if self.chance(0.3):
            names = [self.part_of(name, b"disk%d" % at) for at, name in enumerate(names)]
        if self.chance(0.1):
            release = [self.part_of(name, b"release%d" % at) for at, name in enumerate(release)]
        self.spoil_names(names, release, copies)
        return [self.update_run(names, release, copies, root) for _ in range(self.pick([1, 1, 2, 3]))]

    def image_of(self, stem, data, area, it, share):
        """The names of two files with these contents; in some cases they are damaged or cut short."""
        data, area = bytearray(data), bytearray(area)
        if self.chance(share):
            self.damage(it, data, area)
        if self.chance(0.04):
            area[self.random.randrange(512)] ^= 1 << self.random.randrange(8)
        for content in (data, area):
            if self.chance(0.05):
                del content[-self.pick([1, 512, 513, 5000]):]
        self.files.update({stem + b".data": bytes(data), stem + b".hash": bytes(area)})
        return [stem + b".data", stem + b".hash"]

    def copy_of(self, stem, data, area, it):
        """A copy of the release: damaged, with each second block changed, of other bytes, or another release."""
        kind = self.random.randrange(5)
        if kind == 4:
            return self.seed_of(stem, it)
        if kind == 0:
            lies = bytearray(data)
            for at in range(self.random.randrange(2) * it.data_block, len(lies), 2 * it.data_block):
                lies[at + self.random.randrange(it.data_block)] ^= 1
            return self.image_of(stem, lies, area, it, 0)
        if kind == 1:
            self.files[stem] = self.random.randbytes(self.pick([0, 512, len(data)]))
            return [stem, stem]
        return self.image_of(stem, data, area, it, 0.8)

    def seed_of(self, stem, new):
        """Another release, whose blocks are at other places."""
        seed = Planted(self, (new.data_block, new.hash_block, (new.blocks,)))
        seed.is_bare, seed.salt = False, new.salt if self.chance(0.9) else seed.salt
        seed.contents = self.moved(self.moved(list(new.contents)))
        seed.blocks = len(seed.contents)
        area = seed.made()[1]
        return self.image_of(stem, b"".join(seed.contents), area, seed, 0.3)

    def older(self, new, whole, area):
        """The names of DATA and HASH: an image of another size or salt, one with other blocks, the release, or none."""
        kind = self.random.randrange(8)
        if kind == 0:
            return [b"data", b"hash"]
        if kind == 1:
            other = Planted(self)
            other.is_bare = False
            return self.older_files(b"".join(other.contents), other.made()[1])
        old = Planted(self, (new.data_block, new.hash_block, (new.blocks,)))
        old.is_bare, old.salt = False, new.salt if self.chance(0.9) else old.salt
        old.contents = list(new.contents)
        if self.chance(0.4):
            old.contents = self.moved(old.contents)
        if kind < 5:
            old.contents = old.contents[:self.random.randint(1, len(old.contents))]
            old.contents += [self.random.randbytes(new.data_block) for _ in range(self.pick([0, 0, 1, 20]))]
        for _ in range(self.pick([0, 1, 2, 10])):
            old.contents[self.random.randrange(len(old.contents))] = self.random.randbytes(new.data_block)
        old.blocks = len(old.contents)
        data, hashes = (whole, area) if kind == 7 else (b"".join(old.contents), old.made()[1])
        data, hashes = bytearray(data), bytearray(hashes)
        self.damage(new if kind == 7 else old, data, hashes)
        if self.chance(0.3):
            # as an update leaves it that was interrupted
            hashes[:512] = bytes(512)
        elif self.chance(0.1):
            hashes[self.pick([0, 5, self.random.randrange(512)])] ^= 1 << self.random.randrange(8)
        return self.older_files(data, hashes)

    def moved(self, contents):
        """The same blocks, of which a run moved up or down, or two changed their places."""
        at, count = self.random.randrange(len(contents)), self.pick([1, 1, 2, 5])
        kind = self.random.randrange(3)
        if kind == 0:
            return contents[:at] + contents[at + count:] or contents
        if kind == 1:
            return contents[:at] + contents[:count] + contents[at:]
        other = self.random.randrange(len(contents))
        contents = list(contents)
        contents[at], contents[other] = contents[other], contents[at]
        return contents

    def older_files(self, data, hashes):
        """The names of DATA and HASH, which may be longer or shorter, or missing."""
        names = []
        for name, content in ((b"data", bytes(data)), (b"hash", bytes(hashes))):
            if self.chance(0.1):
                content = content[:-self.pick([1, 512, 513, len(content)])]
            elif self.chance(0.2):
                content += b"\x33" * self.pick([1, 512, 700, 5000])
            self.files[name] = content
            names.append(name)
        if self.chance(0.1):
            del self.files[self.pick(names)]
        return names

    def part_of(self, name, disk):
        """The same bytes as a part or a partition of a disk, which in some cases is a sector too small or ends past the disk."""
        content = self.files.get(name, b"")
        if not isinstance(content, bytes) or self.chance(0.1):
            return name
        count = max(1, -(-len(content) // 512) + self.pick([0, 0, 0, 0, 1, 3, -1]))
        content = content[:count * 512].ljust(count * 512, b"\x44")
        if self.chance(0.4):
            return self.partition_with(content, count, disk)
        first = self.pick([0, 1, 8, 40])
        self.files[disk] = b"\x11" * 512 * first + content + b"\x22" * self.pick([0, 0, 1, 700])
        if self.chance(0.05):
            count += self.pick([1, 2])
        word = b"%s@%s+%s" % (disk, self.decimal(first), self.decimal(count))
        if self.chance(0.03):
            self.files[word] = content
        return word

    def partition_with(self, content, count, disk):
        """A partition with that content, by its number, its UUID or its label."""
        size, uuid, at = self.pick([512, 512, 4096]), self.random.randbytes(16), 64
        count = -(-count * 512 // size)
        ends = range(at + count, at + count + self.pick([1, 1, 5]))
        placed = [(uuid, at, at + count - 1, content)] + [(self.random.randbytes(16), end, end, b"") for end in ends]
        image = self.disk(size, ends[-1] + 64, placed)
        label = self.label_in(image)
        self.spoil_disk(image, size, ends[-1] + 64)
        self.files[disk] = bytes(image)
        digits = uuid.hex().encode()
        spelled = b"-".join([digits[:8], digits[8:12], digits[12:16], digits[16:20], digits[20:]])
        return disk + b"#" + self.pick([b"1", b"1", b"1", b"2", spelled, spelled, spelled.upper(), label, label])

    def label_in(self, image):
        """A label of a partition, if there is a table."""
        try:
            return self.pick(table_of(bytes(image), 512).partitions).label.encode()
        except (Stop, IndexError):
            return b"none"

    def spoil_names(self, names, release, copies):
        """In some cases one argument is another file, or the same one as another argument."""
        if self.chance(0.85):
            return
        self.files[b"dir"] = "directory"
        known = [name for name in self.files if isinstance(self.files[name], bytes)]
        self.files[b"twin"] = (self.pick(["link", "symlink"]), self.pick(known))
        words = self.pick([names, names, release, copies or names])
        words[self.random.randrange(len(words))] = self.pick(
            names + release + [b"missing", b"missing@0+1", b"dir", b".", b"", b"/dev/null", b"twin", b"./data", b"pin", b"none/data",
                               b"new.data@0+1", b"new.data@0+0", b"data#1", b"n" * 256])
        if self.chance(0.2):
            (copies or release).pop()

    def update_run(self, names, release, copies, root):
        if self.chance(0.1) and not any(sign in b"".join(names) for sign in (b"@", b"#")):
            return Run([b"verify"] + names + [root.hex().encode()])
        words = [b"--pin", self.pick([b"pin"] * 60 + [b"missing", b"data", b"", b"-"])]
        if self.chance(0.02):
            words = []
        if self.has("forms", "json") and self.chance(0.25):
            words.append(b"--json")
        if self.has("forms", "progress") and self.chance(0.1):
            words.append(b"--progress")
        if self.chance(0.1):
            words.append(b"--no-index")
        if self.chance(0.02):
            words.append(self.pick([b"--check", b"--no-superblock", b"--hash-offset=512", b"--old-pin=pin"]))
        return Run([b"update"] + self.shuffled(words) + names + release + copies)
