"""`update`: an image that is brought in place to the release of a pin."""

from differences import Bad, Stored
from files import Stop, not_opened
from images import surveyed
from pins import read_pin
from places import grow_place, named_part, open_place, shrink_place
from repairs import Repair, opened
from replies import Json
from stack import SECTOR
from verity import SUPERBLOCK_FAULTS, ImageFault, read_superblock
from words import read_update

DONE, FAULT = 0, 3
SIGNATURE = b"verity\0\0"


class Listed:
    """The data blocks of an image by the first bytes of their digests, as the lowest level of its tree has them."""

    def __init__(self, image, tree):
        digests = bytes(image[tree.first(0) * tree.hash_block:]) if tree.levels else b""
        self.blocks = {}
        for block in range(tree.blocks if tree.levels else 0):
            self.blocks.setdefault(digests[block * 32:][:8], []).append(block)

    def source(self, wanted, block, upwards):
        """The nearest block with that digest, if it is before or after the block, as is asked."""
        nearest = self.elsewhere(wanted, block)
        return None if nearest is None or (nearest < block) != upwards else nearest

    def elsewhere(self, wanted, block):
        """The nearest block with that digest, unless it is the block itself."""
        same = self.blocks.get(wanted[:8], [])
        nearest = min(same, key=lambda it: (abs(it - block), it), default=block)
        return None if nearest == block else nearest


def listed_blocks(image, release):
    """The list of the blocks that the image has, if their digests are comparable with the release's."""
    try:
        old = read_superblock(image)
    except ImageFault:
        return None
    if (old.data_block, old.salt) != (release.data_block, release.salt) or old.tree().end_sectors() > len(image) // SECTOR:
        return None
    return Listed(image, old.tree())


def check_root(image, pin):
    """Ends an update to a release that is too small for its tree, or whose root hash block isn't the pin's."""
    release = Stored(image, 0, None, pin, "second")
    try:
        if release.tree.levels:
            release.check(len(release.tree.levels) - 1, 0)
    except Bad as bad:
        raise Stop(str(bad).encode(), FAULT) from None


def check_pin_apart(files, paths, pin):
    """The file of the pin is neither image, nor is it to be made where one is."""
    for path in paths:
        node, part = files.known(path), named_part(path)
        if node is None and part:
            node = files.known(part[0])
        if files.same_name(pin, path) or node is not None and node is files.known(pin):
            raise not_opened("SameFile", pin)


def run_update(options, words, files, _given, _features):
    *paths, copies = read_update(options, words)
    pin = read_pin(files, options[b"pin"])
    files.opened.clear()
    check_pin_apart(files, paths, options[b"pin"])
    release = open_place(files, copies[-1][1], False).image()
    superblock = read_superblock(release)
    pin.check(superblock)
    check_root(release, pin)
    tree = superblock.tree()
    hash_sectors = (1 + sum(tree.levels)) * tree.hash_block // SECTOR
    lengths = list(zip(paths, (tree.data_sectors(), hash_sectors)))
    for path, sectors in lengths:
        grow_place(files, path, sectors)
    (data, image), _, copies = opened(files, paths, 0, copies, True)
    if tree.data_sectors() > len(data) // SECTOR or hash_sectors > len(image) // SECTOR:
        raise ImageFault("TooSmall", SUPERBLOCK_FAULTS)
    listed, *seeds = [None if b"no-index" in options else listed_blocks(it, superblock) for it in (image, *copies[1][:-1])]
    if image[:len(SIGNATURE)] == SIGNATURE:
        image[:SECTOR] = bytes(SECTOR)
    repair, bad = Repair(tree, superblock.salt, pin.root, 0), []
    lines = list(repair.lines((data, image), copies, True, [], 1))
    copied = list(repair.moves(data, listed)) if listed else []
    copied += repair.seeds(data, copies[0], seeds)
    lines += copied
    lines += repair.fetches(data, copies[0])
    lines += repair.lines((data, image), copies, True, bad)
    lines = [line.encode() for line in lines]
    counts = counted(tree, lines, len(copied), repair.last_read)
    if bad:
        found, status = surveyed(data, image, tree, superblock.salt, pin.root, False)
        return [Json(counts)] if b"json" in options else lines + found, status
    image[:tree.hash_block] = superblock.encode().ljust(tree.hash_block, b"\0")
    for path, sectors in lengths:
        shrink_place(files, path, sectors)
    return told(tree, lines, counts, b"json" in options), DONE


def counted(tree, lines, copied, read):
    """The counts of an update that wrote the blocks of these lines, so many of them copied by lists, and read so many data and hash
    blocks from the release.

    Of the blocks that weren't copied by lists, as many as the release was read for were fetched; the others that were written moved."""
    fetched = min(len(lines) - copied, sum(read))
    bytes_read = read[0] * tree.data_block + read[1] * tree.hash_block
    return {"kept": tree.blocks + sum(tree.levels) - len(lines), "moved": len(lines) - fetched, "fetched": fetched, "fetched_bytes": bytes_read}


def told(tree, lines, counts, as_json):
    """What is printed of an update that wrote the blocks of these lines."""
    if as_json:
        return [Json(counts)]
    line = b"kept %d moved %d fetched %d bytes %d" % tuple(counts.values())
    return [*lines, b"good %d changed 0 unknown 0" % tree.blocks, line]
