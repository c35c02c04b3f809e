"""Verity images: where hash blocks stand, superblock, formatting, verifying, table line."""

import struct
from dataclasses import dataclass
from hashlib import sha256

BLOCK_SIZES = (512, 1024, 2048, 4096)
LIMIT = 2**54
SUPERBLOCK_FAULTS = [
    "Signature", "Version", "HashType", "Algorithm", "DataBlockSize", "HashBlockSize",
    "DataBlocks", "SaltSize", "TooSmall", "Device",
]
FORMAT_FAULTS = ["Shape", "DataTooSmall", "HashTooSmall", "HashReadOnly", "Device"]


class ImageFault(Exception):
    """A refusal by its kind's name, out of the list whose places are the numbers."""

    def __init__(self, kind, kinds, needed=""):
        super().__init__(kind)
        self.kind, self.kinds, self.needed = kind, kinds, needed

    def text(self):
        return "refused %d %s%s" % (self.kinds.index(self.kind) + 1, self.kind, self.needed)


class Tree:
    """The places of a hash tree; levels[l] is the number of blocks of level l."""

    def __init__(self, data_block, hash_block, blocks, start=0):
        self.data_block, self.hash_block = data_block, hash_block
        self.blocks, self.start = blocks, start
        self.slots = hash_block // 32
        self.levels = []
        count = blocks
        while count > 1:
            count = -(-count // self.slots)
            self.levels.append(count)

    def first(self, level):
        """The hash block at which a level begins: the top level stands first."""
        return self.start + sum(self.levels[level + 1:])

    def data_sectors(self):
        return self.blocks * self.data_block // 512

    def end_sectors(self):
        """The end of the tree in sectors of the hash device, 0 without a hash block."""
        end = self.start + sum(self.levels)
        return end * self.hash_block // 512 if self.levels else 0

    def way(self, block):
        """From the top level down: the hash block's number, and the slot in it of the way."""
        steps = []
        for level in range(len(self.levels)):
            steps.append((self.first(level) + block // self.slots, block % self.slots))
            block //= self.slots
        return steps[::-1]

    def way_to_hash_block(self, place):
        """The way to a block of the tree by its number on the hash device; None where there is none."""
        for level, count in enumerate(self.levels):
            number = place - self.first(level)
            if 0 <= number < count:
                return self.way(number * self.slots ** (level + 1))[:len(self.levels) - 1 - level]
        return None


def digest(salt, block):
    return sha256(salt + block).digest()


def grown(tree, salt, blocks):
    """The hash blocks of a tree over data blocks, by their numbers, and the root digest."""
    digests = [digest(salt, block) for block in blocks]
    placed = {}
    for level in range(len(tree.levels)):
        packed = b"".join(digests)
        size = tree.hash_block
        made = [packed[at:at + size].ljust(size, b"\0") for at in range(0, len(packed), size)]
        for count, block in enumerate(made):
            placed[tree.first(level) + count] = block
        digests = [digest(salt, block) for block in made]
    return placed, digests[0]


@dataclass
class Superblock:
    uuid: bytes
    data_block: int
    hash_block: int
    blocks: int
    salt: bytes

    def tree(self):
        return Tree(self.data_block, self.hash_block, self.blocks, 1)

    def encode(self):
        head = struct.pack("<8sII16s32sIIQH6x", b"verity", 1, 1, self.uuid, b"sha256",
                           self.data_block, self.hash_block, self.blocks, len(self.salt))
        return (head + self.salt).ljust(512, b"\0")


def has_shape(data_block, hash_block, blocks):
    """Whether data and tree are of sizes that a device can have."""
    if data_block not in BLOCK_SIZES or hash_block not in BLOCK_SIZES or blocks == 0:
        return False
    tree = Tree(data_block, hash_block, blocks, 1)
    return tree.data_sectors() <= LIMIT and tree.end_sectors() <= LIMIT


def decode(octets):
    """The superblock that 512 bytes hold, or the first field that is wrong."""
    fields = struct.unpack("<8sII16s32sIIQH", octets[:82])
    signature, version, kind, uuid, algorithm, data_block, hash_block, blocks, size = fields
    wrong = [
        ("Signature", signature != b"verity\0\0"), ("Version", version != 1),
        ("HashType", kind != 1), ("Algorithm", algorithm.split(b"\0")[0] != b"sha256"),
        ("DataBlockSize", data_block not in BLOCK_SIZES),
        ("HashBlockSize", hash_block not in BLOCK_SIZES),
    ]
    for name, is_wrong in wrong:
        if is_wrong:
            raise ImageFault(name, SUPERBLOCK_FAULTS)
    if not has_shape(data_block, hash_block, blocks):
        raise ImageFault("DataBlocks", SUPERBLOCK_FAULTS)
    if size > 256:
        raise ImageFault("SaltSize", SUPERBLOCK_FAULTS)
    return Superblock(uuid, data_block, hash_block, blocks, bytes(octets[88:88 + size]))


def read_superblock(image):
    if len(image) < 512:
        raise ImageFault("TooSmall", SUPERBLOCK_FAULTS)
    return decode(bytes(image[:512]))


def data_blocks(image, superblock):
    size = superblock.data_block
    return [bytes(image[at:at + size]) for at in range(0, superblock.blocks * size, size)]


def check_data(data, data_block, hash_block, blocks):
    """How many blocks of the data a tree covers, of which there is a tree, and which lie there."""
    if blocks is None and data_block in BLOCK_SIZES:
        blocks = len(data) // 512 // (data_block // 512)
    if not has_shape(data_block, hash_block, blocks):
        raise ImageFault("Shape", FORMAT_FAULTS)
    if Tree(data_block, hash_block, blocks).data_sectors() > len(data) // 512:
        raise ImageFault("DataTooSmall", FORMAT_FAULTS)
    return blocks


def format_images(data, image, options, uuid, is_grown=False, first=0):
    """Writes a tree to `image`, a bytearray, behind a superblock unless `uuid` is None; gives the root and the blocks. The image
    begins at sector `first` of its file."""
    data_block, hash_block, blocks, salt = options
    blocks = check_data(data, data_block, hash_block, blocks)
    begin = 0 if uuid is None else 1
    tree = Tree(data_block, hash_block, blocks, begin)
    needed = (begin + sum(tree.levels)) * hash_block // 512
    if is_grown:
        image.extend(bytes(max(0, needed * 512 - len(image))))
    if needed > len(image) // 512:
        raise ImageFault("HashTooSmall", FORMAT_FAULTS, " needed %d" % (first + needed))
    placed, root = grown(tree, salt, data_blocks(data, tree))
    if uuid is not None:
        superblock = Superblock(uuid, data_block, hash_block, blocks, salt)
        image[:hash_block] = superblock.encode().ljust(hash_block, b"\0")
    for place, block in placed.items():
        image[place * hash_block:(place + 1) * hash_block] = block
    return root, blocks


def bare_tree(options, sectors):
    """The tree that the words say, over data of so many sectors where they don't say how many blocks."""
    data_block, hash_block, blocks, _ = options
    if blocks is None and data_block in BLOCK_SIZES:
        blocks = sectors // (data_block // 512)
    if not has_shape(data_block, hash_block, blocks):
        raise ImageFault("Shape", FORMAT_FAULTS)
    return Tree(data_block, hash_block, blocks)


def check_sizes(tree, data, image):
    """Data and tree lie on their images, and the superblock too, where there is one."""
    whole = max(tree.end_sectors(), tree.start)
    if tree.data_sectors() > len(data) // 512 or whole > len(image) // 512:
        raise ImageFault("TooSmall", SUPERBLOCK_FAULTS)


def verify_images(data, image, tree, salt, root, first=0):
    """What stands: `matches`, `root differs` or the least hash block that differs, counted from the beginning of the file, at whose
    sector `first` the image begins."""
    check_sizes(tree, data, image)
    placed, found = grown(tree, salt, data_blocks(data, tree))
    size = tree.hash_block
    for place in sorted(placed):
        if image[place * size:(place + 1) * size] != placed[place]:
            return "area differs at block %d" % (first // (size // 512) + place)
    return "matches" if found == root else "root differs"


def survey(data, image, tree, salt, root, lost=(frozenset(), frozenset())):
    """Of each data block None, `changed` or `unknown`, and the hash blocks whose digests don't stand above them or that hold more
    than zeros after the last used entry. Data blocks and hash blocks that are lost can't be read: these aren't good, and neither
    are hash blocks beneath one of them.

    Block k of level l has the digest that stands in slot k mod s of block k / s of level l + 1, of s slots each; that of
    the top level is the root. Hash blocks come as they lie in the area: the top level first."""
    size, top = tree.hash_block, len(tree.levels)

    def stored(level, index):
        at = (tree.first(level) + index) * size
        return bytes(image[at:at + size])

    def above(level, index):
        if level == top:
            return root
        return stored(level, index // tree.slots)[32 * (index % tree.slots):][:32]

    def is_bad(level, index):
        if {(level, index), (level + 1, index // tree.slots)} & lost[1]:
            return True
        return digest(salt, stored(level, index)) != above(level + 1, index)

    def holds_more(level, index):
        used = min(([tree.blocks] + tree.levels)[level] - index * tree.slots, tree.slots)
        return any(stored(level, index)[32 * used:])

    blocks = [(level, index) for level in reversed(range(top)) for index in range(tree.levels[level])]
    states, bad_ones = [], {it for it in blocks if is_bad(*it)}
    for at, block in enumerate(data_blocks(data, tree)):
        way, index = [], at
        for level in range(top):
            index //= tree.slots
            way.append((level, index))
        state = None if at not in lost[0] and digest(salt, block) == above(0, at) else "changed"
        states.append("unknown" if bad_ones.intersection(way) else state)
    return states, [it for it in blocks if it in bad_ones or holds_more(*it)]


def spelled_uuid(uuid):
    digits = uuid.hex()
    return "-".join([digits[:8], digits[8:12], digits[12:16], digits[16:20], digits[20:]])


def dump_facts(superblock):
    return [
        ("uuid", spelled_uuid(superblock.uuid)), ("hash_type", 1), ("algorithm", "sha256"),
        ("data_block", superblock.data_block), ("hash_block", superblock.hash_block),
        ("data_blocks", superblock.blocks), ("salt", superblock.salt.hex() or "-"),
    ]


def table_line(made, root, data_name, hash_name, start=1):
    """The line of what a superblock says, whose tree begins at that hash block."""
    tree = Tree(made.data_block, made.hash_block, made.blocks)
    return b"0 %d verity 1 %s %s %d %d %d %d sha256 %s %s" % (
        tree.data_sectors(), data_name, hash_name, made.data_block, made.hash_block, made.blocks, start,
        root.hex().encode(), made.salt.hex().encode() or b"-")
