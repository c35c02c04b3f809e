"""Two hash trees compared from their roots down."""

from files import Stop
from protection import check_aligned
from verity import ImageFault, SUPERBLOCK_FAULTS, bare_tree, digest, read_superblock


class Stored:
    """A hash image at a place of its file: its tree as it stands there, by its superblock or by options, and the root digest that is
    known of it, by itself or in a pin."""

    def __init__(self, image, first, root, pin, which, said=None):
        image = image[first * 512:]
        self.image, self.root, self.which = image, pin.root if pin else root, which
        rest = b" " + which.encode()
        if pin:
            check_aligned(first, pin.hash_block, rest)
        if said:
            self.tree, self.salt = bare_tree(said, 0), said[3]
        try:
            if not said:
                superblock = read_superblock(image)
                mismatch = pin and pin.mismatch(superblock)
                if mismatch:
                    raise Stop(b"refused %s %s" % (mismatch.encode(), which.encode()))
                check_aligned(first, superblock.hash_block, rest)
                self.tree, self.salt = superblock.tree(), superblock.salt
            if max(self.tree.end_sectors(), self.tree.start) > len(image) // 512:
                raise ImageFault("TooSmall", SUPERBLOCK_FAULTS)
        except ImageFault as fault:
            fault.needed = " " + which
            raise

    def block(self, level, index):
        size = self.tree.hash_block
        at = (self.tree.first(level) + index) * size
        return bytes(self.image[at:at + size])

    def digest(self, height, index):
        """The digest of the subtree of so many levels with this index."""
        if height == len(self.tree.levels):
            return self.root
        slots = self.tree.slots
        return self.block(height, index // slots)[index % slots * 32:][:32]

    def bad_hash_blocks(self):
        """The hash blocks without the digest that is stored above, or with more than zeros after the last used entry, the top
        level first."""
        return [(level, index) for level in reversed(range(len(self.tree.levels))) for index in range(self.tree.levels[level])
                if not self.is_good(level, index)]

    def is_good(self, level, index):
        beneath = self.tree.levels[level - 1] if level else self.tree.blocks
        used = min(self.tree.slots, beneath - index * self.tree.slots)
        return (digest(self.salt, self.block(level, index)) == self.digest(level + 1, index)
                and not any(self.block(level, index)[32 * used:]))

    def check(self, level, index):
        if digest(self.salt, self.block(level, index)) != self.digest(level + 1, index):
            raise Bad("fault hash %s %d %d" % (self.which, level, index))


class Bad(Exception):
    """A hash block that isn't the one whose digest stands above it."""


def unlike(first, second):
    """The first field in which two trees differ, so that their digests can't be compared."""
    a, b = first.tree, second.tree
    for differs, kind in ((a.data_block != b.data_block, "20 OtherDataBlockSize"), (a.hash_block != b.hash_block, "21 OtherHashBlockSize"),
                          (first.salt != second.salt, "22 OtherSalt")):
        if differs:
            return "refused " + kind
    return None


def longest_runs(kinds):
    """The longest runs of kinds that aren't None, as [kind, first, count]."""
    found = []
    for at, kind in enumerate(kinds):
        if kind is None:
            continue
        if found and found[-1][0] == kind and found[-1][1] + found[-1][2] == at:
            found[-1][2] += 1
        else:
            found.append([kind, at, 1])
    return found


def run_lines(kinds, most):
    lines = ["%s %d %d" % tuple(run) for run in longest_runs(kinds)]
    return lines if most is None or len(lines) <= most else lines[:most] + ["more"]


def changed_blocks(first, second):
    """Of each block that both have, in turn, whether it is another one; a hash block that isn't good ends it."""
    both = min(first.tree.blocks, second.tree.blocks)
    height = min(len(first.tree.levels), len(second.tree.levels))
    for it in (first, second):
        if it.tree.levels:
            it.check(len(it.tree.levels) - 1, 0)
    for it in (first, second):
        for level in range(len(it.tree.levels) - 1, height - 1, -1):
            it.check(level, 0)

    def beneath(height, index):
        leaves = first.tree.slots ** height
        begin, end = index * leaves, min(both, (index + 1) * leaves)
        if begin >= both:
            return
        if first.digest(height, index) == second.digest(height, index):
            yield from [None] * (end - begin)
        elif height == 0:
            yield "changed"
        else:
            for it in (first, second):
                it.check(height - 1, index)
            for slot in range(first.tree.slots):
                yield from beneath(height - 1, index * first.tree.slots + slot)
    yield from beneath(height, 0)


def compared(first, second, most):
    """The lines of `diff`, and the kind of each block or None; the last line may be a fault."""
    kinds, fault = [], None
    try:
        for kind in changed_blocks(first, second):
            kinds.append(kind)
    except Bad as bad:
        fault = str(bad)
    if fault is not None:
        return run_lines(kinds, most) + [fault], kinds, fault
    sizes = first.tree.blocks, second.tree.blocks
    kinds += ["removed"] * (sizes[0] - sizes[1]) + ["added"] * (sizes[1] - sizes[0])
    changed = kinds.count("changed")
    totals = "same %d changed %d removed %d added %d" % (
        kinds.count(None), changed, kinds.count("removed"), kinds.count("added"))
    return run_lines(kinds, most) + [totals], kinds, None
