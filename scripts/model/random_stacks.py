"""Random stack texts: most valid, some with a rule broken, some with any word changed."""

import re
from random import Random

from configuration import LIMIT
from parity import covered, parity_of
from random_parts import Dice
from rescue_map import text_of
from strange_words import (
    LEAF_NAMES, NAMES, OPTION_WORDS, SIZES, STRANGE_BYTES, STRANGE_NAMES, STRANGE_NUMBERS, TARGET_WORDS,
)
from tables import PREFIX
from verity import Tree, grown


class Stacks(Dice):
    def above(self, configuration, names):
        """The devices that stand on one of these names."""
        found = set(names)
        for _ in range(9):
            for device in configuration.devices.values():
                if any(lower.name in found for lower in configuration.lowers(device)
                       if lower.name in configuration.devices):
                    found.add(device.name)
        return found

    def lowers(self, session, writable, planned, replaced):
        """The device arguments that a line may name, with their sizes."""
        found = []
        configuration = session.stack.configuration
        for leaf in configuration.leaves.values():
            if leaf.sectors and (leaf.writable or not writable):
                found.append((leaf.name, leaf.sectors))
        for device in configuration.devices.values():
            if (device.writable or not writable) and device.name not in replaced:
                if configuration.depth(device) < 8:
                    found.append((PREFIX + device.name, device.sectors))
        for name, (size, flag) in planned.items():
            if flag or not writable:
                found.append((PREFIX + name, size))
        return found

    def range_of(self, size):
        """A first sector and a length inside so many sectors, often whole or at an end."""
        length = size if self.chance(0.3) else self.random.randint(1, min(size, 40))
        first = self.below(size - length)
        return first, length

    def target(self, lowers, writable):
        """The words of a line behind its start: length, type, arguments."""
        kinds = [(b"linear", 8), (b"striped", 6), (b"unstriped", 4), (b"zero", 2), (b"error", 2)]
        if "crypt" in self.features["targets"] or self.chance(0.1):
            kinds.append((b"crypt", 3))
        kind, = self.random.choices([kind for kind, _ in kinds], [share for _, share in kinds])
        if kind in (b"zero", b"error") or not lowers:
            return self.random.randint(1, 12), kind if kind == b"error" else b"zero"
        if kind == b"striped":
            return self.striped(lowers)
        if kind == b"unstriped":
            return self.unstriped(*self.pick(lowers))
        name, size = self.pick(lowers)
        first, length = self.range_of(size)
        if kind == b"linear":
            return length, b"linear %s %d" % (name, first)
        return self.crypt(name, first, length)

    def striped(self, lowers):
        count = self.pick([1, 2, 2, 2, 3, 3, 4, 5, 16, 16, 17])
        chosen = [self.pick(lowers) for _ in range(count)]
        most = min(size for _, size in chosen)
        chunk = min(most, self.pick([1, 1, 2, 3, 4, 7, 8, 16, most]))
        rows = self.pick([1, most // chunk, self.random.randint(1, most // chunk)])
        pairs = b" ".join(
            b"%s %d" % (name, self.below(size - rows * chunk)) for name, size in chosen)
        return count * rows * chunk, b"striped %d %d %s" % (count, chunk, pairs)

    def unstriped(self, name, size):
        count = min(size, self.pick([1, 1, 2, 2, 3, 4, 5, 16, 17, size]))
        chunk = min(size // count, self.pick([1, 1, 2, 3, 4, 7, 8, 16, size // count]))
        most = size // (count * chunk)
        rows = self.pick([1, most, self.random.randint(1, most)])
        stripe = self.pick([0, count - 1, self.random.randrange(count)])
        taken = ((rows - 1) * count + stripe + 1) * chunk
        first = self.pick([0, size - taken, self.below(size - taken)])
        if self.chance(0.04):
            stripe = self.pick([count, 2**32 - 1, 2**32])
        words = b"unstriped %d %d %d %s %d" % (count, chunk, stripe, name, first)
        return rows * chunk, words

    def crypt(self, name, first, length):
        length = min(length, 12)
        key = self.random.randbytes(self.pick([32, 64])).hex().encode()
        offset = self.pick([0, 1, 3, 8, 2**64 - 1, 2**64 - 8, 2**32])
        options = []
        if self.chance(0.5):
            options = self.random.sample(OPTION_WORDS[:5], self.random.randint(0, 3))
        if self.has("targets", "sector_size") and self.chance(0.5):
            size = self.pick([512, 1024, 2048, 4096])
            options.append(b"sector_size:%d" % size)
            if self.chance(0.06):
                options.append(b"sector_size:%d" % self.pick(SIZES))
            unit = size // 512
            if self.chance(0.9):
                length = max(length // unit, 1) * unit
                offset = offset // unit * unit
            if self.chance(0.5):
                options.append(b"iv_large_sectors")
        words = [b"crypt aes-xts-plain64", key, b"%d" % offset, name, b"%d" % first]
        if options or self.chance(0.2):
            options += [self.pick(options)] if options and self.chance(0.04) else []
            self.random.shuffle(options)
            words += [b"%d" % len(options)] + options
        return length, b" ".join(words)

    def lines(self, lowers, writable):
        start, lines = 0, []
        for _ in range(self.pick([1, 1, 1, 2, 2, 3, 4])):
            length, words = self.target(lowers, writable)
            lines.append(b"%s %s %s" % (self.decimal(start), self.decimal(length), words))
            start += length
        return start, lines

    def faulty_lines(self, lowers, lines):
        """One line more or one in another's place, which breaks one rule or two."""
        at = self.random.randrange(len(lines) + 1)
        start = 0
        for line in lines[:at]:
            start += int(line.split()[1])
        length, words = self.target(lowers, False)
        kinds = self.random.sample(range(9), self.pick([1, 2, 2, 3]))
        words = words.split(b" ")
        places = {b"linear": 1, b"striped": 3, b"crypt": 4, b"unstriped": 4}.get(words[0])
        if 0 in kinds:
            length = 0
        if 1 in kinds:
            start += self.pick([-1, 1]) if start else 1
        if 2 in kinds:
            length = LIMIT - start + self.pick([0, 1, 1, 2**60])
        if 3 in kinds:
            length += 1
        if 4 in kinds and words[0] in (b"striped", b"unstriped"):
            words[2] = self.pick([b"%d" % (int(words[2]) + 1), b"18446744073709551615"])
        if 5 in kinds and places:
            offset = int(words[places + 1])
            words[places + 1] = self.pick([b"%d" % (offset + 1), b"18446744073709551615", b"9999"])
        if 6 in kinds and places:
            words[places] = self.pick([b"none", PREFIX + b"none"])
        if 7 in kinds and places:
            words[places] = PREFIX + self.pick(NAMES)
        faulty = b"%d %d %s" % (start, length, b" ".join(words))
        return lines[:at] + [faulty] + lines[at + self.random.randrange(2):]

    def entry(self, name, writable, lines):
        uuid = self.pick([b"", b"", b"", b"u-1", b"any text here"])
        minor = self.pick([b"", b"", b"", b"3", b"007", b"18446744073709551615"])
        flag = b"rw" if writable else b"ro"
        fields = [name, uuid, minor, flag] + lines
        return b",".join(self.space() + field + self.space() for field in fields)

    def stack_text(self, session):
        """A stack text, valid but for what is over it in the configuration or lies in the dice."""
        draw = self.random.random()
        if draw < 0.06:
            return self.pick([self.chain, self.crowd, self.crowd, lambda: self.tower(session)])()
        planned, entries = {}, []
        names = self.random.sample(NAMES, self.pick([1, 1, 2, 2, 3, 4]))
        replaced = self.above(session.stack.configuration, names)
        faulty = self.pick(names) if self.chance(0.2) else None
        for name in names:
            writable = self.chance(0.7)
            lowers = self.lowers(session, writable, planned, replaced)
            if self.chance(0.03):
                lowers.append((PREFIX + self.pick(NAMES), self.random.randint(1, 9)))
            if planned and self.chance(0.6):
                lowers = lowers[-len(planned):]
            size, lines = self.lines(lowers, writable)
            if name == faulty:
                every = self.lowers(session, False, planned, ())
                lines = self.faulty_lines(every or lowers, lines)
            if self.chance(0.03):
                lines.append(b"%d %d %s" % (size, LIMIT - size + self.pick([0, 0, 1]),
                                            self.pick([b"zero", b"error"])))
                size = LIMIT
            planned[name] = (size, writable)
            entries.append(self.entry(name, writable, lines))
        if self.chance(0.3):
            self.random.shuffle(entries)
        if self.chance(0.03):
            entries.append(self.entry(self.pick(names), self.chance(0.5), [b"0 1 zero"]))
        if self.chance(0.1):
            entries.insert(self.random.randint(0, len(entries)), self.space())
        return b";".join(entries)

    def chain(self):
        """Devices over each other up to the limit of the depth, or one further."""
        count = self.pick([7, 8, 9])
        entries = [b"q1,,,ro,0 1 zero"]
        for at in range(2, count + 1):
            entries.append(b"q%d,,,ro,0 1 linear %sq%d 0" % (at, PREFIX, at - 1))
        if self.chance(0.3):
            self.random.shuffle(entries)
        return b";".join(entries)

    def crowd(self):
        """As many devices, or lines, as there may be, or one more; some break another rule."""
        if self.chance(0.5):
            count = self.pick([60, 63, 64, 65, 65])
            entries = [b"p%d,,,ro,0 1 zero" % at for at in range(count)]
        else:
            count = self.pick([255, 256, 257, 257])
            lines = b",".join(b"%d 1 zero" % at for at in range(count))
            entries = [b"wide,,,ro," + lines + self.pick([b"", b"", b",x"])]
        others = [b"p1,,,ro,0 1 zero;p1,,,rw,0 1 zero", b"p2,,,ro,0 1 linear none 0",
                  b"p3,,,ro,0 1 linear /dev/mapper/p3 0", b"p4,,,ro,1 1 zero"]
        return b";".join(entries + [other for other in others if self.chance(0.25)])

    def tower(self, session):
        """Checked devices over each other, whose reading costs about as much as it may.

        A tree of one level of blocks of 4,096 bytes costs 16 times its devices, one of two 24 times."""
        leaves = [leaf for leaf in session.stack.configuration.leaves.values() if leaf.sectors > 15]
        if not self.has("targets", "verity") or not leaves:
            return self.chain()
        leaf = max(leaves, key=lambda leaf: leaf.sectors)
        wide = self.pick([0, 0, 1, 1, 2, 7]) if leaf.sectors >= 1032 else 0
        on, entries = leaf.name, []
        for at in range(self.pick([6, 7, 8, 8, 8, 9])):
            blocks = 129 if at < wide else self.pick([2, 2, 2, 2, 2, 2, 2, 1])
            entries.append(b"t%d,,,ro,0 %d verity 1 %s %s 4096 4096 %d 0 sha256 %s -" % (
                at, blocks * 8, on, on, blocks, b"0" * 64))
            on = PREFIX + b"t%d" % at if blocks > 1 else on
        return b";".join(entries)

    def twice_wrong(self, text):
        """A text with two words near each other that are wrong in any place."""
        words = list(re.finditer(rb"[^ ,;\t\r\n]+", text))
        if len(words) < 2:
            return text
        first = self.random.randrange(len(words) - 1)
        long_lines = [at for at, word in enumerate(words) if word.group() in (b"verity", b"crypt")]
        if long_lines and self.chance(0.5):
            first = min(self.pick(long_lines) + self.random.randint(1, 10), len(words) - 2)
        second = min(first + self.pick([1, 1, 2, 3]), len(words) - 1)
        for word in (words[second], words[first]):
            text = text[:word.start()] + b"n" * 256 + text[word.end():]
        return text

    def spoiled(self, text):
        """A text with one thing, seldom two, changed at any place of its grammar."""
        if self.chance(0.25):
            return self.twice_wrong(text)
        for _ in range(self.pick([1, 1, 1, 2])):
            tokens = re.findall(rb"[^ ,;\t\r\n]+|[ ,;\t\r\n]", text)
            if not tokens:
                return self.pick(STRANGE_BYTES)
            at = self.random.randrange(len(tokens))
            if self.chance(0.6):
                words = [place for place, token in enumerate(tokens) if token not in b" ,;\t\r\n"]
                digits = [place for place in words if len(tokens[place]) in (64, 128)]
                words = digits if digits and self.chance(0.2) else words
                at = self.pick(words) if words else at
            tokens[at:at + 1] = self.changed(tokens[at])
            text = b"".join(tokens)
        return text

    def changed(self, token):
        kind = self.random.randrange(10)
        if kind == 0:
            return []
        if kind == 1:
            return [token, b" ", token]
        if kind == 2:
            return [self.pick([b",", b";", b" ", b" , ", b";;", b"\t"])]
        if kind == 3:
            at = self.random.randint(0, len(token))
            return [token[:at], self.pick(STRANGE_BYTES), token[at:]]
        if token.isdigit():
            value = int(token)
            near = [b"%d" % max(value + step, 0) for step in (-1, 1, 1, 2)]
            return [self.pick(near if kind < 7 else STRANGE_NUMBERS)]
        if token in (b"ro", b"rw"):
            return [self.pick([b"ro", b"rw", b"rx", b"", b"RO", b"ro rw"])]
        if token in TARGET_WORDS:
            return [self.pick(TARGET_WORDS)]
        if token in OPTION_WORDS:
            return [self.pick(OPTION_WORDS)]
        if len(token) in (64, 128) and kind < 8:
            return [self.pick([token[:-1], token + b"0", token[:-1] + b"g", token.upper(), token[:64],
                               (token + token)[:96], token[:96], token + token[:64]])]
        if kind == 9:
            return [self.pick([b"-", b"aa", b"AA" * 256, b"aa" * 257, b"a", b"sha256", b"sha1",
                               b"aes-xts-plain", b"aes-xts-plain64", b"0", b"1"])]
        names = NAMES + [PREFIX + name for name in NAMES[:6]] + LEAF_NAMES[:5]
        return [self.pick(names if kind < 7 else STRANGE_NAMES)]

    def verity_entries(self, words):
        """A tree over one of the leaves, in a new leaf, and the text that checks it."""
        stack = self.session_over(words).stack
        leaves = [leaf for leaf in stack.configuration.leaves.values() if 0 < leaf.sectors <= 300]
        if not leaves:
            return None
        leaf = self.pick(leaves)
        data_block = self.pick([size for size in SIZES if size <= leaf.sectors * 512])
        offset = self.below(leaf.sectors - data_block // 512)
        most = (leaf.sectors - offset) * 512 // data_block
        blocks = self.pick([1, most, self.random.randint(1, most)])
        data = stack.images[leaf.name].stored(offset, blocks * data_block // 512)
        if self.chance(0.4):
            zeroed = self.random.randrange(blocks) * data_block
            data = data[:zeroed] + bytes(data_block) + data[zeroed + data_block:]
        salt = self.random.randbytes(self.pick([0, 0, 1, 32, 256]))
        tree = Tree(data_block, self.pick([512, 512, 1024, 4096]), blocks, self.pick([0, 0, 1, 2]))
        image, root = self.tree_image(tree, salt, data)
        hashes = b"T%d" % len(words)
        kind = self.pick([b"ro", b"rw"])
        file = self.new_file(image, b"tree")
        words.append(b"%s=%s:%s" % (hashes, kind, file))
        healing = self.healing_words(words, tree, data, image) if self.has("targets", "healing") and self.chance(0.6) else []
        if healing:
            self.files[file] = self.with_lost_blocks(tree, image)
        if healing and self.has("forms", "bound-maps") and self.chance(0.4):
            self.lose_sectors(words, leaf, stack.images[leaf.name].stored(0, leaf.sectors))
        texts, device, tree_device = [], leaf.name, hashes
        if offset or healing or self.chance(0.4):
            device = PREFIX + b"under"
            texts.append(b"under,,,ro," + self.window(leaf.name, offset, leaf.sectors - offset))
        if self.chance(0.3):
            tree_device = PREFIX + b"roots"
            texts.append(b"roots,,,ro," + self.window(hashes, 0, len(image) // 512))
        line = self.verity_line(tree, device, tree_device, root, salt, healing)
        texts.append(b"v%d,,,%s" % (len(words), line))
        if kind == b"rw":
            name = b"tree%d" % len(words)
            texts.append(b"%s,,,rw,0 %d linear %s 0" % (name, len(image) // 512, hashes))
        return b";".join(texts)

    def tree_image(self, tree, salt, data):
        """The image of a tree, seldom with a bit changed, and its root, or another one."""
        size = tree.data_block
        placed, root = grown(tree, salt, [data[at:at + size] for at in range(0, len(data), size)])
        image = bytearray(self.content(1)[:1] * (max(tree.end_sectors(), 1) * 512))
        for place, block in placed.items():
            image[place * tree.hash_block:(place + 1) * tree.hash_block] = block
        if self.chance(0.25):
            image[self.random.randrange(len(image))] ^= 1 << self.random.randrange(8)
        if self.chance(0.1):
            root = bytes(31) + root[:1]
        return bytes(image), root

    def healing_words(self, words, tree, data, image):
        """The words for parity of data and tree in a new leaf, some with a rule broken; none where the blocks differ in size."""
        if tree.data_block != tree.hash_block:
            return []
        size, roots, first = tree.data_block, self.pick([2, 2, 2, 3, 8, 24]), self.pick([0, 0, 1])
        area = covered(data, image, size, tree.blocks, tree.start)
        needed, most = tree.blocks + sum(tree.levels), len(area) // size
        blocks = self.pick([needed, most])
        stored = bytes(first * size) + parity_of(area[:blocks * size], size, roots)
        if self.chance(0.1):
            stored = stored[:-512]
        blocks = self.pick([blocks] * 10 + [needed - 1, most + 1, 0, 2**64 - 1])
        name = b"P%d" % len(words)
        words.append(b"%s=ro:%s" % (name, self.new_file(stored, b"parity")))
        pairs = [(b"use_fec_from_device", name), (b"fec_roots", b"%d" % roots), (b"fec_blocks", b"%d" % blocks),
                 (b"fec_start", b"%d" % first)]
        self.random.shuffle(pairs)
        return [b" ".join(pair) for pair in pairs]

    def with_lost_blocks(self, tree, image):
        """The image of a tree, in two of three cases with one to five hash blocks that differ from those that parity covers. The bytes
        decide which, so that no other number is drawn."""
        dice, changed = Random(image), bytearray(image)
        for _ in range(dice.choice([0, 0, 1, 2, 3, 5])):
            place = tree.start + dice.randrange(sum(tree.levels)) if tree.levels else 0
            changed[min(place * tree.hash_block + dice.randrange(tree.hash_block), len(changed) - 1)] ^= 1 << dice.randrange(8)
        return bytes(changed)

    def lose_sectors(self, words, leaf, content):
        """Binds a leaf's bytes, as a file with a map that lacks a few of its sectors."""
        place = [word.partition(b"=")[0] for word in words].index(leaf.name)
        lost = self.random.sample(range(leaf.sectors), min(leaf.sectors, self.pick([1, 1, 2, 3, 6])))
        text = text_of([at not in lost for at in range(leaf.sectors)], self.chance(0.2))
        words[place] = b"%s=ro%%%s:%s" % (leaf.name, self.new_file(text, b"m"), self.new_file(content, b"lost"))

    def window(self, name, offset, sectors):
        """The lines of a device on the sectors of another one from an offset on."""
        if self.chance(0.5):
            return b"0 %d linear %s %d" % (sectors, name, offset)
        at = self.random.randrange(sectors)
        lines = [b"%d 1 error" % at]
        if at:
            lines.insert(0, b"0 %d linear %s %d" % (at, name, offset))
        rest = sectors - at - 1
        if rest:
            lines.append(b"%d %d linear %s %d" % (at + 1, rest, name, offset + at + 1))
        return b",".join(lines)

    def verity_line(self, tree, device, hashes, root, salt, healing):
        """Flag and line of a device that checks a tree, some with a rule or two broken."""
        blocks, start, flag = tree.blocks, tree.start, b"ro"
        length = tree.data_sectors()
        length = self.pick([length, length, self.random.randint(1, length)])
        if self.chance(0.35):
            kinds = self.random.sample(range(5), self.pick([1, 2, 2]))
            length += 8 if 0 in kinds else 0
            blocks = self.pick([blocks + 1, 0, 2**64 - 1]) if 1 in kinds else blocks
            start = self.pick([start + 1, 2**64 - 1, LIMIT]) if 2 in kinds else start
            flag = b"rw" if 3 in kinds else flag
            device = hashes if 4 in kinds else device
        line = b"%s,0 %d verity 1 %s %s %d %d %d %d sha256 %s %s" % (
            flag, length, device, hashes, tree.data_block, tree.hash_block, blocks, start,
            root.hex().encode(), salt.hex().encode() or b"-")
        options = [[], [], [], [b"ignore_zero_blocks"], [b"ignore_zero_blocks"], [b"panic_on_corruption"],
                   [b"try_verify_in_tasklet", b"ignore_zero_blocks", b"restart_on_corruption"]]
        if self.chance(0.04):
            line = line.rpartition(b" ")[0] + b" " + b"5a" * self.pick([255, 256, 257])
        words = self.pick(options) + healing
        if self.has("targets", "signature_key") and self.chance(0.1):
            words.append(b"root_hash_sig_key_desc " + self.pick([b"verity:vendor", b"fec_start", b"k", b"k" * 255, b"k" * 256]))
        self.random.shuffle(words)
        count = len(b" ".join(words).split())
        return line + (b" %d " % count + b" ".join(words) if words or self.chance(0.2) else b"")
