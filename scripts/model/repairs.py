"""A damaged verity image, whose blocks are sought in copies of it from the root down.

A hash block that no copy has is reconstructed from the blocks beneath it; if there is parity, what is lost is restored by it."""

from files import Stop
from images import check_aligned, surveyed, told_root
from parity import corrected, covered, made_again
from places import open_place
from protection import check_parity
from stack import SECTOR
from verity import bare_tree, check_sizes, digest, read_superblock
from words import read_repair


def parts_of(places, first):
    """The first sector and the number of sectors of the data and of the hash image in their places."""
    counts = [place.sectors() for place in places]
    is_one = places[0].node is places[1].node and places[0].part == places[1].part
    data_end = first if first and is_one else counts[0]
    return (0, min(data_end, counts[0])), (min(first, counts[1]), max(0, counts[1] - first))


def opened(files, paths, first, copies, writes):
    """The bytes of the data and of the hash image's place, the length of the data, and the copies of each."""
    files.opened.clear()
    places = [open_place(files, path, False, writes) for path in paths]
    files.opened.clear()
    parts = parts_of(places, first)
    for place, part, path in zip(places, parts, paths):
        files.take(place.node, writes, place.within(*part), path)
    found = [[open_place(files, copy[at], False).image() for copy in copies] for at in (0, 1)]
    return [place.image() for place in places], parts[0][1] * SECTOR, found


def block_at(image, at, size):
    """The bytes there, where they lie in whole sectors of the image."""
    return bytes(image[at:at + size]) if at + size <= len(image) // SECTOR * SECTOR else None


# How many bytes are fetched by one read.
MOST = 1 << 20


def line_of(height, index, found, writes):
    name = "data %d" % index if height == 0 else "hash %d %d" % (height - 1, index)
    return "%s %s %s" % ("repaired" if writes else "repairable", name, found)


class Repair:
    """What is repaired: a tree under a root, the data and the hash image's file, and copies of each."""

    def __init__(self, tree, salt, root, first):
        self.tree, self.salt, self.root, self.start = tree, salt, root, first * SECTOR
        # how many data blocks, and how many hash blocks, were read from the last copy
        self.last_read = [0, 0]

    def place(self, height, index):
        """The first byte and the size of a data block, at height 0, or of a hash block of level `height` - 1."""
        if height == 0:
            return index * self.tree.data_block, self.tree.data_block
        size = self.tree.hash_block
        return self.start + (self.tree.first(height - 1) + index) * size, size

    def lines(self, whole, copies, writes, bad, lowest=0):
        """A line for each block that isn't good and that a copy has; it is written where it may be.

        Those that still aren't good are put into `bad`, each with its digest where it was found nowhere. Blocks beneath the lowest
        height are left out; the digests of the next ones that good blocks have are kept."""
        heights = [self.tree.blocks] + self.tree.levels
        good = self.digests = {0: self.root}
        for height in reversed(range(lowest, len(heights))):
            at_height, digests = 0 if height == 0 else 1, good
            good = self.digests = {}
            for index in range(heights[height]):
                if index not in digests:
                    continue
                at, size = self.place(height, index)
                block = block_at(whole[at_height], at, size)
                if digest(self.salt, block) != digests[index]:
                    number, block = self.sought(copies[at_height], at, size, digests[index], at_height)
                    found = "copy %s" % number
                    if number is None:
                        found, block = "remade", self.remade(whole, height, index, digests[index])
                    if block is None:
                        bad.append((height, index, digests[index]))
                        continue
                    yield line_of(height, index, found, writes)
                    if not writes:
                        bad.append((height, index, None))
                        continue
                    whole[at_height][at:at + size] = block
                if height:
                    slots = self.tree.slots
                    good.update({index * slots + slot: block[32 * slot:][:32] for slot in range(slots)})

    def moves(self, data, listed):
        """A line for each data block that isn't good and is copied from where the list has it: those that moved up from the last one
        on, then those that moved down."""
        for upwards in (True, False):
            for index in range(self.tree.blocks)[::-1 if upwards else 1]:
                source = listed.source(self.digests[index], index, upwards) if index in self.digests else None
                if source is None:
                    continue
                (at, size), (source_at, _) = self.place(0, index), self.place(0, source)
                block, there = block_at(data, source_at, size), block_at(data, at, size)
                if block and digest(self.salt, block) == self.digests[index] != digest(self.salt, there):
                    data[at:at + size] = block
                    yield "moved data %d from %d" % (index, source)

    def seeds(self, data, copies, lists):
        """A line for each data block that isn't good and is copied from where the list of a copy has it at another place."""
        for number, (copy, listed) in enumerate(zip(copies, lists), 1):
            for index in range(self.tree.blocks) if listed else ():
                source = listed.elsewhere(self.digests[index], index) if self.lacks(data, index) else None
                if source is None:
                    continue
                (at, size), (source_at, _) = self.place(0, index), self.place(0, source)
                block = block_at(copy, source_at, size)
                if block and digest(self.salt, block) == self.digests[index]:
                    data[at:at + size] = block
                    yield line_of(0, index, "copy %d" % number, True)

    def fetches(self, data, copies):
        """A line for each data block that isn't good and that a copy has, from one copy after another. Neighbouring ones are read by one read
        of at most 1 MiB, which isn't made where the copy ends before them."""
        for number, copy in enumerate(copies, 1):
            lacking = [it for it in range(self.tree.blocks) if self.lacks(data, it)]
            while lacking:
                count = 1
                while count < min(len(lacking), MOST // self.tree.data_block) and lacking[count] == lacking[0] + count:
                    count += 1
                run, lacking = lacking[:count], lacking[count:]
                if block_at(copy, *self.place(0, run[-1])) is None:
                    continue
                self.last_read[0] += count if number == len(copies) else 0
                for index in run:
                    at, size = self.place(0, index)
                    block = block_at(copy, at, size)
                    if digest(self.salt, block) == self.digests[index]:
                        data[at:at + size] = block
                        yield line_of(0, index, "copy %d" % number, True)

    def lacks(self, data, index):
        return index in self.digests and digest(self.salt, block_at(data, *self.place(0, index))) != self.digests[index]

    def passes(self, whole, copies, writes, parity):
        """The same, and one for each lost block that parity makes again; anew where one of these was a hash block."""
        while True:
            bad, again = [], False
            yield from self.lines(whole, copies, writes, bad)
            numbers = [self.number(*it[:2]) for it in bad]
            for (height, index, wanted), number in zip(bad, numbers):
                block = wanted and self.by_parity(self.area(whole), parity, numbers, number, wanted)
                if not block:
                    continue
                yield line_of(height, index, "parity", writes)
                if writes:
                    at, size = self.place(height, index)
                    whole[1 if height else 0][at:at + size] = block
                    again = again or height > 0
            if not again:
                return

    def by_parity(self, area, parity, lost, number, wanted):
        """The block with that digest, from the blocks that aren't lost or by its wrong bytes, or None."""
        block = made_again(area, self.tree.data_block, *parity, lost, number)
        if block is None or digest(self.salt, block) != wanted:
            block = corrected(area, self.tree.data_block, *parity, lost, number)
        return block if block is not None and digest(self.salt, block) == wanted else None

    def area(self, whole):
        """What parity covers, as it stands."""
        image = whole[1][self.start:]
        return covered(whole[0], image, self.tree.data_block, self.tree.blocks, self.tree.start)

    def number(self, height, index):
        """The number of a block among the covered ones."""
        return index if height == 0 else self.tree.blocks + self.tree.first(height - 1) - self.tree.start + index

    def sought(self, copies, at, size, wanted, kind):
        for number, copy in enumerate(copies, 1):
            block = block_at(copy, at, size)
            self.last_read[kind] += 1 if block is not None and number == len(copies) else 0
            if block is not None and digest(self.salt, block) == wanted:
                return number, block
        return None, None

    def remade(self, whole, height, index, wanted):
        """The block made of those of the next height beneath it, else of one further down, if one has that digest."""
        for base in reversed(range(height)):
            block = self.made(whole, base, height - base, index)
            if digest(self.salt, block) == wanted:
                return block
        return None

    def made(self, whole, base, steps, index):
        """A block so many steps above those that are taken as they stand."""
        height = base + steps
        if steps == 0:
            return block_at(whole[0 if height == 0 else 1], *self.place(height, index))
        counts, slots = [self.tree.blocks] + self.tree.levels, self.tree.slots
        children = range(index * slots, min((index + 1) * slots, counts[height - 1]))
        packed = b"".join(digest(self.salt, self.made(whole, base, steps - 1, it)) for it in children)
        return packed.ljust(self.tree.hash_block, b"\0")


def check_unused(tree, salt, root, image):
    """No hash block on the path to the last data block holds something after its last used entry, as far down as they are valid."""
    if tree.end_sectors() > len(image) // SECTOR:
        return
    wanted, counts = root, [tree.blocks] + tree.levels
    for level in reversed(range(len(tree.levels))):
        at = (tree.first(level) + counts[level + 1] - 1) * tree.hash_block
        block = bytes(image[at:at + tree.hash_block])
        if digest(salt, block) != wanted:
            return
        last = (counts[level] - 1) % tree.slots * 32
        if any(block[last + 32:]):
            raise Stop(b"refused 60 UnusedEntries")
        wanted = block[last:last + 32]


def run_repair(options, words, files, _given, _features):
    *paths, root, said, first, copies, fec = read_repair(options, words)
    root, writes, is_bare = told_root(root, files), b"check" not in options, b"no-superblock" in options
    if is_bare:
        check_aligned(first, said[1])
    whole, data_size, copies = opened(files, paths, first, copies, writes)
    parity = fec and files.image(fec[0], False)
    if is_bare:
        tree, salt = bare_tree(said, data_size // SECTOR), said[3]
    else:
        superblock = read_superblock(whole[1][first * SECTOR:])
        check_aligned(first, superblock.hash_block)
        tree, salt = superblock.tree(), superblock.salt
    check_unused(tree, salt, root, whole[1][first * SECTOR:])
    check_sizes(tree, whole[0][:data_size], whole[1][first * SECTOR:])
    repair = Repair(tree, salt, root, first)
    if fec:
        check_parity(tree, repair.area(whole), parity, fec[1])
        lines = repair.passes(whole, copies, writes, (fec[1], parity))
    else:
        lines = repair.lines(whole, copies, writes, [])
    lines = [line.encode() for line in lines]
    found, status = surveyed(whole[0][:data_size], whole[1][first * SECTOR:], tree, salt, root, False)
    return lines + found, status
