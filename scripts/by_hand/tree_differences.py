#!/usr/bin/env python3
"""tree_differences.py COUNT SEED COMMAND ..: random pairs of hash images, compared by `COMMAND .. [--runs N] HASH1 ROOT1 HASH2 ROOT2`,
as `dmstack diff`.

The images are made by the model (scripts/model/verity.py) over data of one block to three levels of hash blocks, of all block
sizes, with contents that are equal here and there, and of equal or different lengths. What the command prints must be what a
comparison of the data says: a line for each longest run, the totals, and status 3 where the two differ. Then hash blocks are
changed one at a time: the command ends with that block's tree, level and number, and status 3, where it reads it, and else prints
the same.
A last line `reads N N`, where the command prints one, is compared with the hash blocks that differ.
"""
import os
import random
import subprocess
import sys
import tempfile

sys.path.insert(0, os.path.join(os.path.dirname(os.path.realpath(__file__)), "../model"))
from differences import longest_runs  # noqa: E402
from verity import Superblock, grown  # noqa: E402

# (data block, hash block, most blocks)
SHAPES = [(512, 512, 5), (512, 512, 40), (512, 512, 300), (4096, 512, 40), (1024, 1024, 40), (512, 4096, 300), (2048, 2048, 70)]
SHAPES += [(4096, 4096, 140), (512, 512, 700)]


class Image:
    """Data blocks, and the hash image over them."""

    def __init__(self, blocks, data_block, hash_block, salt):
        self.blocks = blocks
        superblock = Superblock(bytes(16), data_block, hash_block, len(blocks), salt)
        self.tree = superblock.tree()
        placed, self.root = grown(self.tree, salt, blocks)
        self.image = bytearray(superblock.encode().ljust(hash_block, b"\0"))
        for number in sorted(placed):
            assert len(self.image) == number * hash_block
            self.image += placed[number]
        self.placed = placed

    def digest(self, level, index):
        """The digest so many levels above the subtree with this index."""
        if level == len(self.tree.levels):
            return self.root
        size = self.tree.slots
        block = self.placed[self.tree.first(level) + index // size]
        return block[32 * (index % size):32 * (index % size) + 32]


def said(first, second, most):
    """What is printed of the two, and the hash blocks that both have and that differ."""
    both = min(len(first.blocks), len(second.blocks))
    kinds = ["changed" if first.blocks[at] != second.blocks[at] else None for at in range(both)]
    kinds += ["removed"] * (len(first.blocks) - both) + ["added"] * (len(second.blocks) - both)
    lines = [f"{kind} {at} {count}" for kind, at, count in longest_runs(kinds)]
    if most is not None and len(lines) > most:
        lines = lines[:most] + ["more"]
    changed = kinds.count("changed")
    lines.append(f"same {both - changed} changed {changed} removed {len(first.blocks) - both} added {len(second.blocks) - both}")
    return lines, 0 if kinds.count(None) == len(kinds) else 3


def entered(first, second):
    """The hash blocks (level, number) that both have and whose digests differ."""
    both = min(len(first.blocks), len(second.blocks))
    levels = min(len(first.tree.levels), len(second.tree.levels))
    found = []
    for level in range(levels):
        width = first.tree.slots ** (level + 1)
        for index in range(-(-both // width)):
            if first.digest(level + 1, index) != second.digest(level + 1, index):
                found.append((level, index))
    return levels, found


class Trial:
    def __init__(self, command, folder, dice):
        self.command, self.folder, self.dice = command, folder, dice
        self.runs = self.faults = 0

    def ask(self, images, roots, most):
        paths = [os.path.join(self.folder, name) for name in ("hash1", "hash2")]
        for path, image in zip(paths, images):
            with open(path, "wb") as out:
                out.write(image)
        options = [] if most is None else ["--runs", str(most)]
        words = [*options, paths[0], roots[0].hex(), paths[1], roots[1].hex()]
        ran = subprocess.run(self.command + words, capture_output=True, text=True)
        self.runs += 1
        lines = ran.stdout.splitlines()
        reads = lines.pop() if lines and lines[-1].startswith("reads ") else None
        return lines, ran.returncode, reads

    def equal(self, what, got, wanted):
        if got != wanted:
            self.faults += 1
            print(f"{what}: got {got}, wanted {wanted}")

    def pair(self):
        dice = self.dice
        data_block, hash_block, most_blocks = dice.choice(SHAPES)
        salt = dice.randbytes(dice.choice([0, 1, 32, 256]))
        few = [dice.randbytes(data_block) for _ in range(3)]
        one = [dice.choice(few) if dice.random() < 0.5 else dice.randbytes(data_block) for _ in range(dice.randint(1, most_blocks))]
        two = list(one)
        for _ in range(dice.choice([0, 0, 1, 2, 10])):
            at = dice.randrange(len(two))
            for place in range(at, min(len(two), at + dice.choice([1, 1, 5]))):
                two[place] = dice.choice(few) if dice.random() < 0.3 else dice.randbytes(data_block)
        cut = dice.random()
        if cut < 0.3:
            two = two[:dice.randint(1, len(two))]
        elif cut < 0.6:
            two += [dice.randbytes(data_block) for _ in range(dice.choice([1, 3, 40]))]
        first, second = Image(one, data_block, hash_block, salt), Image(two, data_block, hash_block, salt)
        if dice.random() < 0.5:
            first, second = second, first
        return first, second

    def try_pair(self):
        first, second = self.pair()
        most = self.dice.choice([None, None, 1, 2, 5])
        lines, status = said(first, second, most)
        roots = (first.root, second.root)
        got, code, reads = self.ask((first.image, second.image), roots, most)
        self.equal("lines", got, lines)
        self.equal("status", code, status)
        levels, differ = entered(first, second)
        if reads is not None:
            sectors = first.tree.hash_block // 512
            heights = [len(it.tree.levels) for it in (first, second)]
            wanted = [1 + ((height > 0) + height - levels + len(differ)) * sectors for height in heights]
            self.equal("reads", reads, "reads %d %d" % tuple(wanted))
        self.change(first, second, levels, differ, lines, status, most)

    def change(self, first, second, levels, differ, lines, status, most):
        """One byte of a hash block of one of the two is changed."""
        which = self.dice.randrange(2)
        tree = (first, second)[which].tree
        if not tree.levels:
            return
        level = self.dice.randrange(len(tree.levels))
        index = self.dice.randrange(tree.levels[level])
        images = [bytearray(first.image), bytearray(second.image)]
        at = (tree.first(level) + index) * tree.hash_block + self.dice.randrange(tree.hash_block)
        images[which][at] ^= 1 << self.dice.randrange(8)
        got, code, _ = self.ask(images, (first.root, second.root), most)
        is_read = (level, index) in differ or (level >= levels and index == 0) or level == len(tree.levels) - 1
        if is_read:
            self.equal("changed block", (got[-1:], code), ([f"fault hash {('first', 'second')[which]} {level} {index}"], 3))
        else:
            self.equal("changed block that isn't read", (got, code), (lines, status))


def main():
    count, seed, command = int(sys.argv[1]), sys.argv[2], sys.argv[3:]
    with tempfile.TemporaryDirectory() as folder:
        trial = Trial(command, folder, random.Random(seed))
        for _ in range(count):
            trial.try_pair()
    print(f"{trial.runs} runs, {trial.faults} of them not as they should be")
    sys.exit(1 if trial.faults else 0)


if __name__ == "__main__":
    main()
