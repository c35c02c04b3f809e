"""Random images with a tree at some place: behind a superblock or without one, in a file of their own or behind the data,
of one to three levels, with damage of data and hash blocks; and pairs of trees that are compared."""

from parity import covered, parity_of
from pins import Pin
from random_parts import Dice, Run
from strange_words import STRANGE_NUMBERS
from tables import PREFIX
from verity import Superblock, Tree, grown

# Data block, hash block, and numbers of blocks: at the edges of one, two and three levels.
SHAPES = [(512, 512, (1, 2, 15, 16, 17, 40, 255, 256, 257, 300)), (512, 1024, (1, 31, 32, 33, 70)),
          (1024, 512, (1, 2, 16, 17, 60, 257)), (4096, 512, (1, 5, 17)), (512, 4096, (1, 2, 127, 128, 129)),
          (4096, 4096, (1, 2, 7)), (2048, 2048, (1, 3, 65)), (1024, 1024, (1, 32, 33))]


class Planted:
    """Data, a tree over them at a place, and what the words say of it."""

    def __init__(self, dice, shape=None):
        self.data_block, self.hash_block, numbers = shape or dice.pick(SHAPES)
        self.blocks = dice.pick(numbers)
        self.salt = dice.random.randbytes(dice.pick([0, 1, 32, 32, 256]))
        few = [dice.random.randbytes(self.data_block) for _ in range(2)] + [bytes(self.data_block)]
        self.contents = [dice.pick(few) if dice.chance(0.5) else dice.random.randbytes(self.data_block)
                         for _ in range(self.blocks)]
        self.is_bare = dice.chance(0.4)

    def sizes(self):
        return [b"--data-block=%d" % self.data_block, b"--hash-block=%d" % self.hash_block]

    def made(self, start=None):
        """The tree's hash blocks behind the superblock's, or alone, and the root."""
        begin = 0 if self.is_bare else 1
        tree = Tree(self.data_block, self.hash_block, self.blocks, begin)
        placed, root = grown(tree, self.salt, self.contents)
        area = b"".join(placed[place] for place in sorted(placed))
        if not self.is_bare:
            superblock = Superblock(bytes(range(16)), self.data_block, self.hash_block, self.blocks, self.salt)
            area = superblock.encode().ljust(self.hash_block, b"\0") + area
        return tree, bytearray(area), root


class Trees(Dice):
    def offset(self, hash_block, least=0):
        """A place for a tree, mostly one at which a hash block begins."""
        unit = hash_block // 512 if self.chance(0.95) else 1
        first = -(-least // 512 // unit) * unit + unit * self.pick([0, 0, 1, 2, 3])
        return first * 512

    def offset_words(self, offset, option=b"--hash-offset"):
        if offset == 0 and self.chance(0.7):
            return []
        if self.chance(0.04):
            offset += self.pick([1, 511, 512, -512 if offset else 512])
        return [option, b"%d" % offset]

    def tree_case(self):
        cases = [self.made_tree, self.checked_tree, self.checked_tree, self.compared_trees]
        return self.pick(cases + [self.repaired_tree] if self.has("commands", "repair") else cases)()

    def bare_words(self, it, with_blocks=False):
        """What `verify`, `repair`, `table` and `diff` are told of a tree without a superblock."""
        if not it.is_bare:
            return []
        words = [b"--no-superblock", b"--salt", it.salt.hex().encode() or b"-"] + it.sizes()
        if with_blocks or self.chance(0.5):
            words.append(b"--blocks=%d" % (it.blocks + (self.pick([-1, 1]) if self.chance(0.1) else 0)))
        return words

    def made_tree(self):
        """A tree that the program makes, and then checks."""
        it = Planted(self)
        data = b"".join(it.contents)
        tree, area, root = it.made()
        is_one = self.chance(0.4)
        offset = self.offset(it.hash_block, len(data) if is_one else 0)
        size = offset + len(area) + self.pick([0, 0, 0, 512, 100, -512, -1])
        old = self.pick([b"\0", b"\x5a"]) * max(0, size)
        if is_one:
            names = [b"one", b"one"]
            self.files[b"one"] = data + old[len(data):]
        else:
            names = [b"data", b"hash"]
            self.files.update({b"data": data + self.random.randbytes(self.pick([0, 0, 100, 700])), b"hash": old})
        if self.chance(0.1):
            self.files[b"twin"] = ("link", names[0])
            names[self.random.randrange(2)] = b"twin"
        words = it.sizes() + [b"--salt", it.salt.hex().encode() or b"-"] + self.offset_words(offset)
        if self.chance(0.6) or is_one:
            words.append(b"--blocks=%d" % (it.blocks + self.pick([0] * 10 + [1, -1])))
        words += [b"--no-superblock"] if it.is_bare else [b"--uuid", bytes(range(16)).hex().encode()]
        if self.has("forms", "grow") and self.chance(0.3):
            words.append(b"--grow")
            if not is_one and self.chance(0.3):
                del self.files[b"hash"]
        self.files[b"root"] = root.hex().encode()
        runs = [Run([b"format"] + self.written_root() + words + names)]
        if self.has("forms", "fec") and self.chance(0.3):
            fec = [b"--fec", self.pick([b"parity"] * 9 + names), b"--fec-roots=%d" % self.pick([2, 2, 8, 23, 24, 25, 1])]
            self.files[b"parity"] = bytes(self.pick([0, 512, 4096, 40000]))
            checked = [b"verify"] + fec + self.bare_words(it) + self.offset_words(offset) + names + [root.hex().encode()]
            runs = [Run([b"format"] + fec + self.written_root() + words + names), Run(checked)]
        return runs + [self.tree_run(it, names, root, offset) for _ in range(2)]

    def checked_tree(self):
        """A tree that stands there, with bytes changed in none, one or several of its blocks."""
        it = Planted(self)
        tree, area, root = it.made()
        data = bytearray(b"".join(it.contents))
        self.damage(it, data, area)
        is_one = self.chance(0.3)
        offset = self.offset(it.hash_block, len(data) if is_one else 0)
        self.files[b"root"] = root.hex().encode() + self.pick([b"", b"\n", b" x"])
        if is_one:
            self.files[b"one"] = bytes(data) + b"\x77" * (offset - len(data)) + bytes(area)
            names = [b"one", b"one"]
        else:
            self.files.update({b"data": bytes(data), b"hash": b"\x77" * offset + bytes(area)})
            names = [b"data", b"hash"]
        if self.chance(0.1):
            name = self.pick(names)
            self.files[name] = self.files[name][:-self.pick([1, 512, 513])]
        runs = [self.tree_run(it, names, root, offset) for _ in range(self.pick([1, 2, 3]))]
        fec = self.parity_words(it, bytes(data), area, self.files[names[1]][offset + len(area):], names)
        if fec:
            said, rest = self.root_words(root)
            runs.append(Run([b"verify"] + self.shuffled(fec, self.bare_words(it), self.offset_words(offset), said) + names + rest))
        return runs

    def repaired_tree(self):
        """A damaged image, and copies of it that are damaged too."""
        it = Planted(self)
        _, area, root = it.made()
        whole = b"".join(it.contents)
        is_one = self.chance(0.3)
        offset = self.offset(it.hash_block, len(whole) if is_one else 0)
        self.files[b"root"] = root.hex().encode()
        names, copies = self.image_files(it, whole, area, offset, is_one, b""), []
        for number in range(self.pick([0, 1, 1, 2, 2, 3])):
            copies += self.image_files(it, whole, area, offset, is_one, b"%d" % number)[is_one:]
        if copies and self.chance(0.1):
            copies[self.random.randrange(len(copies))] = self.pick(names + [b"missing", b"root", b"twin"])
            self.files[b"twin"] = (self.pick(["link", "symlink"]), self.pick(names))
        if copies and self.chance(0.05):
            copies.pop()
        runs, fec = [], self.parity_words(it, whole, area, self.files[names[1]][offset + len(area):], names)
        for _ in range(self.pick([1, 2, 3])):
            said, rest = self.root_words(root)
            check = [b"--check"] if self.chance(0.4) else []
            words = self.shuffled(check, self.offset_words(offset), self.bare_words(it), said, fec)
            runs.append(Run([b"repair"] + words + names + rest + copies))
        return runs

    def parity_words(self, it, whole, area, behind, names):
        """Options that name the file of an image's parity, as it was before the damage; sometimes it is damaged too."""
        if not self.has("forms", "fec") or self.chance(0.5):
            return []
        roots, made = self.pick([2, 2, 3, 8, 24]), bytearray(4096)
        if it.data_block == it.hash_block:
            made = bytearray(parity_of(covered(whole, area + behind, it.hash_block, it.blocks, 0 if it.is_bare else 1), it.hash_block, roots))
        if self.chance(0.2):
            made[self.random.randrange(len(made))] ^= 1 << self.random.randrange(8)
        self.files[b"parity"] = bytes(made[:-1] if self.chance(0.05) else made)
        words = [self.pick([b"--fec", b"--fec-device"]), self.pick([b"parity"] * 16 + names + [b"missing"])]
        said = roots + (self.pick([-1, 1, 2]) if self.chance(0.1) else 0)
        return words + ([b"--fec-roots=%d" % said] if said != 2 or self.chance(0.3) else [])

    def image_files(self, it, whole, area, offset, is_one, mark):
        """The names of the data and of the tree of an image, of which some blocks are damaged, and some are cut off."""
        data, tree = bytearray(whole), bytearray(area)
        self.damage(it, data, tree)
        if tree and self.chance(0.03):
            tree[self.random.randrange(it.hash_block)] ^= 1
        if is_one:
            files = {b"one" + mark: bytes(data) + b"\x77" * (offset - len(data)) + bytes(tree)}
        else:
            files = {b"data" + mark: bytes(data), b"hash" + mark: b"\x77" * offset + bytes(tree)}
        names = list(files) * (1 + is_one)
        self.files.update(files)
        if self.chance(0.1):
            name = self.pick(names)
            self.files[name] = self.files[name][:-self.pick([1, 512, 513, 5000])]
        elif self.chance(0.2):
            self.files[names[1]] += b"\x33" * self.pick([1, 512, 700])
        return names

    def damage(self, it, data, area):
        """Changes bytes of data blocks and of hash blocks, or swaps two of these."""
        for _ in range(self.pick([0, 0, 1, 1, 2, 5, 20])):
            at = self.random.randrange(it.blocks)
            for block in range(at, min(it.blocks, at + self.pick([1, 1, 2, 17]))):
                data[block * it.data_block + self.random.randrange(it.data_block)] ^= 1 << self.random.randrange(8)
        begin = 0 if it.is_bare else it.hash_block
        count = (len(area) - begin) // it.hash_block
        for _ in range(self.pick([0, 0, 0, 1, 1, 2, 3]) if count else 0):
            at = begin + self.random.randrange(count) * it.hash_block
            if self.chance(0.2):
                other = begin + self.random.randrange(count) * it.hash_block
                size = it.hash_block
                area[at:at + size], area[other:other + size] = area[other:other + size], area[at:at + size]
            else:
                area[at + self.random.randrange(it.hash_block)] ^= 1 << self.random.randrange(8)

    def tree_run(self, it, names, root, offset):
        place = self.offset_words(offset)
        said, rest = self.root_words(root)
        draw = self.random.random()
        if draw < 0.35 or it.is_bare and draw < 0.7:
            return Run([b"verify"] + self.shuffled(self.bare_words(it), place, said) + names + rest)
        if draw < 0.75:
            words = [b"--all"] + ([b"--json"] if self.has("forms", "json") and self.chance(0.3) else [])
            if not self.has("forms", "all"):
                words = []
            words = self.shuffled(words, self.bare_words(it), place, said)
            return Run([b"verify"] + words + names + rest)
        if draw < 0.82:
            words = [b"--json"] if self.has("forms", "json") and self.chance(0.4) else []
            return Run([b"dump"] + self.shuffled(words, place) + names[1:])
        words = [b"--name", self.pick([b"v", b"n" * 127, b"n" * 128, b"a/b", b"x"])] if self.chance(0.4) else []
        fec = []
        if self.has("forms", "fec") and self.chance(0.3):
            fec = [b"--fec", self.pick([b"P", b"P", PREFIX + b"p", b"a b"]), b"--fec-roots=%d" % self.pick([2, 2, 24, 25, 1])]
            fec = self.pick([fec, fec, fec[:2], fec[2:]])
        words = self.shuffled(words, self.bare_words(it, True), place, said, fec)
        devices = [self.pick([b"D", PREFIX + b"a", b"/dev/sda1", b"", b"a b"]) if self.chance(0.3) else b"D"] + [b"H"]
        return Run([b"table"] + words + names[1:] + rest + devices)

    def root_words(self, root):
        """The root as an option's file or as a word."""
        if self.chance(0.2):
            name = self.pick([b"root"] * 8 + [b"missing", b".", b"data", b"/dev/null"])
            return [b"--root-hash-file", name], [root.hex().encode()] if self.chance(0.05) else []
        word = root.hex().encode()
        return [], [self.pick([word] * 12 + [b"0" * 64, word.upper(), word[:-1]])]

    def shuffled(self, *groups):
        """Options in any order, each with its value."""
        units, words = [], []
        for group in groups:
            at = 0
            while at < len(group):
                has_value = at + 1 < len(group) and not group[at + 1].startswith(b"--") and b"=" not in group[at]
                units.append(group[at:at + 1 + has_value])
                at += 1 + has_value
        self.random.shuffle(units)
        for unit in units:
            words += unit
        return words

    def written_root(self):
        """In some cases the file to which `format` writes a pin or the root hash."""
        if self.chance(0.8):
            return []
        if self.chance(0.4):
            self.files[b"kept"] = self.pick([b"", b"note\n", bytes(5000), Pin(bytes(32), b"", 512, 512, 1).text()])
        return [self.pick([b"--pin", b"--root-hash-file"]), self.pick([b"kept"] * 8 + [b"data", b"hash", b"parity", b"none/kept", b"-"])]

    def drawn_pin(self, it, root):
        """The text of a tree's pin, in some cases with another value, or no pin."""
        pin = Pin(root, it.salt, it.data_block, it.hash_block, it.blocks)
        if self.chance(0.1):
            setattr(pin, *self.pick([("root", bytes(32)), ("salt", pin.salt + b"x" if len(pin.salt) < 256 else b""),
                                     ("data_block", 1024), ("hash_block", 2048), ("blocks", pin.blocks + 1)]))
        lines = pin.text().splitlines(keepends=True)
        if self.chance(0.05):
            del lines[self.random.randrange(len(lines))]
        return b"".join(lines)

    def compared_trees(self):
        """Two trees that mostly differ in some blocks, some with a hash block changed."""
        old = Planted(self)
        new = Planted(self, (old.data_block, old.hash_block, (old.blocks,)))
        old.is_bare = new.is_bare = self.chance(0.25)
        new.salt = old.salt if self.chance(0.95) else new.salt
        if self.chance(0.95):
            blocks = list(old.contents)
            for _ in range(self.pick([0, 0, 1, 2, 10])):
                at = self.random.randrange(len(blocks))
                for place in range(at, min(len(blocks), at + self.pick([1, 1, 5]))):
                    blocks[place] = self.random.randbytes(old.data_block)
            if self.chance(0.3):
                blocks = blocks[:self.random.randint(1, len(blocks))]
            elif self.chance(0.4):
                blocks += [self.random.randbytes(old.data_block) for _ in range(self.pick([1, 3, 40]))]
            new.contents, new.blocks = blocks, len(blocks)
        if self.chance(0.03):
            new = Planted(self)
            new.is_bare = old.is_bare
        pair = [old, new] if self.chance(0.5) else [new, old]
        words, pins, places = [], [], []
        for it, name, option in zip(pair, (b"first", b"second"), (b"--old-pin", b"--pin")):
            offset = self.offset(it.hash_block) if self.chance(0.3) else 0
            places += self.offset_words(offset, option.replace(b"pin", b"hash-offset"))
            _, area, root = it.made()
            pin = self.drawn_pin(it, root) if self.chance(0.02 if it.is_bare else 0.25) else None
            digits = root.hex().encode() if pin is None and self.chance(0.25) else None
            # A tree of one data block without a superblock has no hash blocks.
            if area and self.chance(0.15):
                area[self.random.randrange(len(area))] ^= 1 << self.random.randrange(8)
            if self.chance(0.05):
                del area[-self.pick([1, 512, 513]):]
            self.files[name] = self.random.randbytes(offset) + bytes(area)
            words.append(name)
            if digits is not None:
                self.files[name + b".root"] = self.pick([digits] * 5 + [digits + b"\n", digits[1:]])
                pins += [option.replace(b"pin", b"root-hash-file"), name + self.pick([b".root"] * 20 + [b".none"])]
            elif pin is None:
                words.append(self.pick([root.hex().encode()] * 20 + [b"0" * 64]))
            else:
                self.files[name + b".pin"] = pin
                pins += [option, name + self.pick([b".pin"] * 20 + [b".none"])]
        options = pins + places + ([b"--runs", self.pick([b"1", b"2", b"5", b"0", *STRANGE_NUMBERS])] if self.chance(0.3) else [])
        if self.has("forms", "json") and self.chance(0.2):
            options.append(b"--json")
        if self.has("forms", "all") and self.chance(0.3):
            options.append(b"--all")
        options += self.bare_words(self.pick([old, new]), True)
        return [Run([b"diff"] + self.shuffled(options) + words)]
