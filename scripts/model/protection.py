"""`format --fec` and `verify --fec`: the parity of an image in a file of its own."""

from files import REFUSED, Stop, not_opened
from parity import WORD, covered, parity_of, sectors_of_parity
from stack import SECTOR
from verity import Tree, bare_tree, has_shape, read_superblock

FAULT = 3


def check_parity(tree, area, parity, roots):
    """Data and hash blocks have one size, and the parity's file has the sectors that it needs."""
    check_one_size(tree.data_block, tree.hash_block)
    needed = sectors_of_parity(area, tree.data_block, roots)
    if len(parity) // SECTOR < needed:
        raise Stop(b"refused 48 FecTooSmall needed %d" % needed)


def check_aligned(first, hash_block, rest=b""):
    """A tree begins where a hash block of its file does."""
    if hash_block >= SECTOR and first % (hash_block // SECTOR):
        raise Stop(b"refused 18 Unaligned" + rest)


def check_one_size(data_block, hash_block):
    if data_block != hash_block:
        raise Stop(b"refused 47 OtherBlockSizes")


def parity_words(made, image, ahead, device, roots):
    """The options of a table line for parity over the data and the hash image, from the tree on to its end."""
    check_one_size(made.data_block, made.hash_block)
    whole = len(image) // made.hash_block
    if whole < ahead + sum(Tree(made.data_block, made.hash_block, made.blocks).levels):
        raise Stop(b"refused 9 TooSmall")
    return b" 8 use_fec_from_device %s fec_blocks %d fec_start 0 fec_roots %d" % (device, made.blocks + whole - ahead, roots)


def laid_out(files, paths, fec, first, writable, said=None):
    """The tree of an image that is there, what its parity covers, and the parity's file. Without a superblock options say the tree."""
    if said:
        check_aligned(first, said[1])
    files.opened.clear()
    data, image = (files.image(path, False) for path in paths)
    parity = files.image(fec[0], writable)
    if first and image is data:
        data = data[:first * SECTOR]
    image = image[first * SECTOR:]
    tree = bare_tree(said, len(data) // SECTOR) if said else read_superblock(image).tree()
    check_aligned(first, tree.hash_block)
    if tree.data_sectors() > len(data) // SECTOR:
        raise Stop(b"refused 9 TooSmall")
    check_one_size(tree.data_block, tree.hash_block)
    return tree, covered(data, image, tree.data_block, tree.blocks, tree.start), parity


def protect(files, paths, fec, first, is_grown, said):
    """Writes the parity of an image. Without a superblock options say the tree."""
    if is_grown:
        files.make(fec[0])
    tree, area, parity = laid_out(files, paths, fec, first, True, said)
    if is_grown:
        parity.extend(bytes(max(0, sectors_of_parity(area, tree.data_block, fec[1]) * SECTOR - len(parity))))
    check_parity(tree, area, parity, fec[1])
    made = parity_of(area, tree.data_block, fec[1])
    parity[:len(made)] = made


def found(files, paths, fec):
    """A format that may make files opens those that are there before it makes one."""
    files.opened.clear()
    missing = []
    for path, writable in ((paths[0], False), (paths[1], False), (fec[0], True)):
        try:
            files.image(path, writable)
        except Stop as stop:
            if path is paths[0] or not stop.line.startswith(b"refused 1 "):
                raise
            missing.append(path)
    if missing[:1] == [paths[1]] and fec[0] == paths[1]:
        raise not_opened("SameFile", fec[0])
    files.opened.clear()


def measured(files, paths, fec, first, options, is_bare):
    """The parity's file has the sectors that the image takes that a format is to make, where the options make one."""
    data_block, _, blocks, _ = options
    files.opened.clear()
    data, image = (files.image(path, False) for path in paths)
    parity = files.image(fec[0], True)
    files.opened.clear()
    if first and image is data:
        data = data[:first * SECTOR]
    if blocks is None and data_block >= SECTOR:
        blocks = len(data) // SECTOR // (data_block // SECTOR)
    if not has_shape(data_block, data_block, blocks):
        return
    covered_blocks = blocks + max(0, len(image[first * SECTOR:]) // SECTOR * SECTOR // data_block - (not is_bare))
    needed = -(-covered_blocks // (WORD - fec[1])) * fec[1] * data_block // SECTOR
    if len(parity) // SECTOR < needed:
        raise Stop(b"refused 48 FecTooSmall needed %d" % needed)


def check_parity_of(files, paths, fec, first, said=None):
    """The parity's file is there and large enough, before anything is said of the image."""
    tree, area, parity = laid_out(files, paths, fec, first, False, said)
    check_parity(tree, area, parity, fec[1])
    files.opened.clear()


def compared_parity(files, paths, fec, first, said=None):
    """What is said of the parity in a file, and the status."""
    try:
        tree, area, parity = laid_out(files, paths, fec, first, False, said)
        check_parity(tree, area, parity, fec[1])
    except Stop as stop:
        return stop.line, REFUSED
    made, size = parity_of(area, tree.data_block, fec[1]), tree.data_block * fec[1]
    for at in range(0, len(made), size):
        if made[at:at + size] != parity[at:at + size]:
            return b"parity differs in round %d" % (at // size), FAULT
    return b"parity ok", 0
