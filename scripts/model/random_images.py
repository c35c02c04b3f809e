"""Random verity images: formatted by the program or prepared here, some with a byte changed."""

from configuration import LIMIT
from random_parts import Dice, Run
from strange_words import SIZES, STRANGE_NAMES, STRANGE_NUMBERS, UUIDS
from tables import PREFIX
from verity import Superblock, Tree, grown


class Images(Dice):
    def image_case(self):
        data_block, hash_block = self.pick(SIZES), self.pick(SIZES)
        most = self.pick([1, 2, 3, 17, 40, 130])
        blocks = self.random.randint(1, most)
        if blocks * data_block > 300000:
            data_block = 512
        data = self.content(8)
        data = (data * (blocks * data_block // len(data) + 1))[:blocks * data_block]
        extra = self.random.randbytes(self.pick([0, 0, 0, 1, 511, 512, 600]))
        needed = (1 + sum(Tree(data_block, hash_block, blocks).levels)) * hash_block
        size = max(0, needed + self.pick([0, 0, 0, 0, 0, 512, 100, 5000, -1, -512]))
        old = b"" if self.chance(0.5) else b"\x5a"
        self.files[b"data"] = data + extra
        self.files[b"hash"] = old * size or bytes(size)
        options = self.format_options(data_block, hash_block, blocks)
        paths = [b"data", b"hash"]
        if self.chance(0.06):
            self.spoil_paths(paths)
        runs = [Run([b"format"] + options + paths)]
        root = self.root(data, data_block, hash_block, blocks, options)
        for _ in range(self.pick([1, 2, 3])):
            runs += self.image_runs(root)
        return [self.spoiled_words(run) if self.chance(0.05) else run for run in runs]

    def spoil_paths(self, paths):
        self.files[b"dir"] = "directory"
        self.files[b"twin"] = (self.pick(["link", "symlink"]), self.pick([b"data", b"hash"]))
        paths[self.random.randrange(2)] = self.pick(
            [b"missing", b"dir", b".", b"", b"/dev/null", b"twin", b"twin", b"./data", b"data", b"hash"])

    def format_options(self, data_block, hash_block, blocks):
        salt = self.random.randbytes(self.pick([0, 1, 2, 32, 255, 256])).hex().encode() or b"-"
        if self.chance(0.2):
            salt = salt.upper()
        if self.chance(0.05):
            salt = self.pick([b"a", b"0g", b"aa" * 257, b"", b"--", b"aaa"])
        uuid = self.pick(UUIDS)
        if self.chance(0.03):
            uuid = self.pick([uuid[:-1], b"", b"x", uuid + b"0", uuid.replace(b"-", b"_")])
        options = [(b"--salt", salt), (b"--uuid", uuid)]
        if data_block != 4096 or self.chance(0.5):
            options.append((b"--data-block", self.size_word(data_block)))
        if hash_block != 4096 or self.chance(0.5):
            options.append((b"--hash-block", self.size_word(hash_block)))
        if self.chance(0.3):
            count = self.pick([blocks, blocks, self.random.randint(0, blocks + 1)])
            options.append((b"--blocks", self.pick([self.decimal(count)] * 8 + STRANGE_NUMBERS)))
        self.random.shuffle(options)
        words = []
        for name, value in options:
            words += [name + b"=" + value] if self.chance(0.3) else [name, value]
        return words + ([b"--"] if self.chance(0.05) else [])

    def size_word(self, size):
        return self.decimal(size) if self.chance(0.95) else self.pick(STRANGE_NUMBERS)

    def root(self, data, data_block, hash_block, blocks, options):
        """The root that the format gives, if its options are those planned."""
        joined = b" ".join(options).replace(b"=", b" ").split(b" ")
        salt = joined[joined.index(b"--salt") + 1] if b"--salt" in joined else b"-"
        try:
            salt = b"" if salt == b"-" else bytes.fromhex(salt.decode())
        except ValueError:
            salt = b""
        parts = [data[at:at + data_block] for at in range(0, len(data), data_block)]
        return grown(Tree(data_block, hash_block, blocks, 1), salt, parts)[1]

    def image_runs(self, root):
        if self.chance(0.6):
            return self.prepared_runs()
        word = self.root_word(root)
        names = [self.pick([b"D", b"/dev/sda1", PREFIX + b"a"] * 4 + STRANGE_NAMES) for _ in range(2)]
        return [Run(self.pick([
            [b"verify", b"data", b"hash", word], [b"dump", b"hash"],
            [b"table", b"hash", word] + names,
        ]))]

    def root_word(self, root):
        word = root.hex().encode()
        if self.chance(0.15):
            other = [word.upper(), b"0" * 64, b"0" * 64, word[:-1], word + b"0", word[:-1] + b"g", b""]
            word = self.pick(other)
        return word

    def prepared_runs(self):
        """Calls on images that were made here, with one thing in them changed."""
        data_block, hash_block = self.pick(SIZES), self.pick([512, 512, 1024, 4096])
        blocks = self.pick([1, 2, 17, 40])
        data = bytearray(self.content(2) * (blocks * data_block // 1024 + 1))[:blocks * data_block]
        salt = self.random.randbytes(self.pick([0, 0, 4, 32, 256]))
        superblock = Superblock(self.random.randbytes(16), data_block, hash_block, blocks, salt)
        tree = superblock.tree()
        placed, root = grown(tree, salt, [data[at:at + data_block] for at in range(0, len(data), data_block)])
        image = bytearray(superblock.encode().ljust(hash_block, b"\0"))
        image += b"".join(placed[place] for place in sorted(placed))
        image += self.random.randbytes(self.pick([0, 0, 1, 512]))
        change = self.random.randrange(8)
        if change < 3:
            self.change_superblock(image)
        elif change < 5:
            image[self.random.randrange(len(image))] ^= 1 << self.random.randrange(8)
        elif change == 5:
            data[self.random.randrange(len(data))] ^= 1
        elif change == 6:
            cut = self.pick([data, image])
            del cut[max(0, len(cut) - self.pick([1, 512, 513])):]
        if self.chance(0.1):
            image = image[:self.pick([0, 511, 512, 513, 1023])]
        names = [b"data%d" % len(self.files), b"hash%d" % len(self.files)]
        self.files.update(zip(names, (bytes(data), bytes(image))))
        word = self.root_word(root)
        runs = [Run([b"verify"] + names + [word]), Run([b"verify"] + names + [word]),
                Run([b"dump", names[1]]), Run([b"table", names[1], word, b"D", PREFIX + b"h"])]
        return self.random.sample(runs, self.pick([1, 2]))

    def change_superblock(self, image):
        at, size = self.pick([(0, 8), (8, 4), (12, 4), (16, 16), (32, 32), (38, 2), (64, 4), (68, 4),
                              (72, 8), (72, 8), (80, 2), (80, 2), (80, 2), (80, 2), (82, 6), (88, 256), (344, 168)])
        if self.chance(0.6) and size <= 8:
            sizes = [0, 1, 255, 256, 257, 257, 257, 258, 512, 65535]
            others = [0, 1, 2, 3, 257, 512, 1024, 2048, 4096, 6144, 8192, LIMIT, 2**50, 2**51, 2**51 + 1,
                      2**64 - 1]
            value = self.pick(sizes if size == 2 else others)
            image[at:at + size] = (value % 256**size).to_bytes(size, "little")
        else:
            image[at + self.random.randrange(size)] ^= 1 << self.random.randrange(8)
        if self.chance(0.4):
            fields = [(8, 4), (12, 4), (64, 4), (68, 4), (72, 8), (80, 2)]
            first = self.random.randrange(len(fields))
            for at, size in fields[first:first + self.pick([1, 2, 2])]:
                image[at:at + size] = bytes(size)
