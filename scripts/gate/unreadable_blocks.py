#!/usr/bin/env python3
"""Tries `dmstack verify --all`, `diff --all` and `repair` on images of which some sectors can't be read.

unreadable_blocks.py [--cases N] [--seed S] [PROGRAM]: formats images by the model of scripts/model, changes blocks of the data and
of the tree, and has reads of other sectors fail (scripts/gate/unreadable_sectors.c). What `verify --all` prints must be what the model says
of blocks that can't be read or aren't good, and so must what `diff --all` prints of hash blocks. A `repair` by a whole copy must leave the formatted block wherever all hash blocks above
it can be read, each other one as it was, and print at its end what `verify --all` prints of that; of a round with parity as many blocks come
back as a codeword has bytes of it, and as many `cat` of a `verity` line with parity returns. So must `repair --check` of the image as it is. Where the superblock can't be read each ends so.
"""
import argparse
import os
import shutil
import subprocess
import sys
import tempfile

sys.dont_write_bytecode = True
TOP = os.path.dirname(os.path.dirname(os.path.dirname(os.path.realpath(__file__))))
sys.path[:0] = [f"{TOP}/scripts/model", f"{TOP}/scripts/lib"]

from checks import Checks, add_cases, random_cases  # noqa: E402
from images import told_survey  # noqa: E402
from parity import covered, parity_of, rounds_of  # noqa: E402
from sentences import without_sentence  # noqa: E402
from verity import format_images, read_superblock, survey  # noqa: E402

SECTOR = 512
REFUSED = ([b"refused 10 Device"], 1)


class Wrong(Exception):
    """An answer that isn't the one that is wanted."""


def save(room, name, content):
    with open(f"{room}/{name}", "wb") as file:
        file.write(content)


def load(room, name):
    with open(f"{room}/{name}", "rb") as file:
        return file.read()


def changed(dice, content, size, first, end, rate):
    """The content with some of its blocks from one to another changed."""
    made = bytearray(content)
    for at in range(first * size, end * size, size):
        if dice.random() < rate:
            made[at + dice.randrange(size)] ^= dice.randint(1, 255)
    return bytes(made)


class Case:
    """An image, some of whose sectors can't be read."""

    def __init__(self, dice, room, library):
        self.room, self.library = room, library
        size, hash_size = dice.choice([512, 1024, 2048, 4096]), dice.choice([512, 512, 1024, 4096])
        blocks = dice.choice([1, dice.randint(2, 40), dice.randint(120, 300), dice.randint(300, 700)])
        data = b"".join(dice.randbytes(8) * (size // 8) for _ in range(blocks))
        image = bytearray((4 + blocks * 2 * 32 // hash_size + 8) * hash_size)
        root, _ = format_images(data, image, (size, hash_size, None, dice.randbytes(dice.choice([0, 8]))), bytes(16))
        self.whole, self.root = (data, bytes(image)), root
        superblock = read_superblock(self.whole[1])
        self.tree, self.salt = superblock.tree(), superblock.salt
        rate = dice.choice([0, 0.01, 0.1])
        end = self.tree.start + sum(self.tree.levels)
        self.stands = changed(dice, data, size, 0, blocks, rate), changed(dice, self.whole[1], hash_size, 1, end, rate)
        self.pick(dice, dice.choice([0, 0.005, 0.05]))

    def pick(self, dice, rate):
        """Picks the sectors that can't be read."""
        ends = len(self.whole[0]) // SECTOR, len(self.whole[1]) // SECTOR
        first = self.tree.hash_block // SECTOR
        self.bad = [[it for it in range(start, end) if dice.random() < rate] for start, end in zip((0, first), ends)]
        if dice.random() < 0.5 and self.tree.levels:
            self.bad[1].append(dice.randrange(first, (self.tree.start + sum(self.tree.levels)) * first))
        self.headless = dice.random() < 0.05
        if self.headless:
            self.bad[1].append(0)

    def lost(self):
        """The data blocks and the hash blocks that can't be read."""
        data = {it * SECTOR // self.tree.data_block for it in self.bad[0]}
        places = {it * SECTOR // self.tree.hash_block for it in self.bad[1]}
        hashes = {(level, index) for level, count in enumerate(self.tree.levels) for index in range(count)
                  if self.tree.first(level) + index in places}
        return data, hashes

    def told(self, data, image):
        return told_survey(*survey(data, image, self.tree, self.salt, self.root, self.lost()), False)

    def told_difference(self):
        """What `diff --all` prints of a whole tree and of this one, which has the same root hash."""
        if self.headless:
            return [b"refused 10 Device second"], 1
        _, bad = survey(*self.stands, self.tree, self.salt, self.root, self.lost())
        lines, top = [b"hash %d %d" % it for it in bad], (len(self.tree.levels) - 1, 0)
        if top in self.lost()[1]:
            return lines + [b"refused 10 Device second"], 1
        if top in bad:
            return lines + [b"fault hash second %d %d" % top], 3
        return lines + [b"same %d changed 0 removed 0 added 0" % self.tree.blocks], 3 if bad else 0

    def is_reached(self, level, index):
        """Whether all hash blocks above a block of that level can be read; the level below the lowest is that of the data."""
        lost = self.lost()[1]
        for above in range(level + 1, len(self.tree.levels)):
            index //= self.tree.slots
            if (above, index) in lost:
                return False
        return True

    def mended(self):
        """What a repair leaves where copies are whole: the formatted block wherever the hash blocks above it can be read."""
        data, image = (bytearray(it) for it in self.stands)
        places = [(data, 0, self.tree.data_block, -1, index, index) for index in range(self.tree.blocks)]
        places += [(image, 1, self.tree.hash_block, level, index, self.tree.first(level) + index)
                   for level, count in enumerate(self.tree.levels) for index in range(count)]
        for made, side, size, level, index, place in places:
            if self.is_reached(level, index):
                made[place * size:(place + 1) * size] = self.whole[side][place * size:(place + 1) * size]
        return bytes(data), bytes(image)

    def ended(self, *words):
        listed = [f"{name} {it}" for name, bad in zip(("data", "hash"), self.bad) for it in bad]
        given = {**os.environ, "LD_PRELOAD": self.library, "UNREADABLE": " ".join(listed)}
        return subprocess.run([PROGRAM, *words], cwd=self.room, env=given, capture_output=True, timeout=60, check=False)

    def run(self, *words):
        done = self.ended(*words)
        if without_sentence(done.stdout, done.stderr, done.returncode) != b"":
            raise Wrong(f"{words[0]}: an error output: {done.stderr[:200]}")
        return done.stdout.split(b"\n")[:-1], done.returncode

    def check(self, what, found, wanted):
        if found != wanted:
            raise Wrong(f"{what}: {found} and not {wanted}; unreadable: {self.bad}")

    def tried(self):
        for name, content in zip(("data", "hash", "copy.data", "copy.hash"), self.stands + self.whole):
            save(self.room, name, content)
        root = self.root.hex()
        wanted = REFUSED if self.headless else self.told(*self.stands)
        self.check("verify --all", self.run("verify", "--all", "data", "hash", root), wanted)
        self.check("diff --all", self.run("diff", "--all", "copy.hash", root, "hash", root), self.told_difference())
        lines, status = self.run("repair", "--check", "data", "hash", root, "copy.data", "copy.hash")
        self.check("repair --check", ([it for it in lines if not it.startswith(b"repairable ")], status), wanted)
        self.check("what is left", (load(self.room, "data"), load(self.room, "hash")), self.stands)
        lines, status = self.run("repair", "data", "hash", root, "copy.data", "copy.hash")
        if self.headless:
            return self.check("repair", (lines, status), wanted)
        left = load(self.room, "data"), load(self.room, "hash")
        self.check("repair", ([it for it in lines if not it.startswith(b"repaired ")], status), self.told(*left))
        for name, found, wanted in zip(("data", "hash"), left, self.mended()):
            if found != wanted:
                raise Wrong(f"repair: another {name} is left; unreadable: {self.bad}")


class ParityCase(Case):
    """An image with parity, of which data blocks of one round can't be read."""

    def __init__(self, dice, room, library):
        super().__init__(dice, room, library)
        block, self.roots = dice.choice([512, 1024]), dice.choice([2, 3, 8])
        blocks = dice.choice([dice.randint(40, 200), dice.randint(400, 600)])
        data = b"".join(dice.randbytes(8) * (block // 8) for _ in range(blocks))
        image = bytearray()
        self.root, _ = format_images(data, image, (block, block, None, dice.randbytes(8)), bytes(16), is_grown=True)
        self.whole = data, bytes(image)
        superblock = read_superblock(self.whole[1])
        self.tree, self.salt, self.headless = superblock.tree(), superblock.salt, False
        area = covered(*self.whole, block, blocks, self.tree.start)
        rounds = rounds_of(area, block, self.roots)
        turn = dice.randrange(rounds)
        self.gone = sorted(dice.sample(range(turn, blocks, rounds), dice.choice([1, self.roots, self.roots + 1])))
        self.bad = [[it * block // SECTOR + dice.randrange(block // SECTOR) for it in self.gone], []]
        data = bytearray(data)
        for it in self.gone:
            data[it * block] ^= 1
        self.stands, self.parity = (bytes(data), self.whole[1]), parity_of(area, block, self.roots)

    def check_read(self):
        """A `verity` line with parity returns as many lost blocks of a round as a codeword has bytes of parity, and ends before the first
        of one more."""
        tree, sectors = self.tree, len(self.whole[0]) // SECTOR
        count = tree.blocks + len(self.whole[1]) // tree.hash_block - tree.start
        shape = f"{tree.data_block} {tree.hash_block} {tree.blocks} {tree.start} sha256 {self.root.hex()} {self.salt.hex()}"
        parity = f"8 use_fec_from_device P fec_roots {self.roots} fec_blocks {count} fec_start 0"
        save(self.room, "fec.stack", f"v,,,ro,0 {sectors} verity 1 D H {shape} {parity}\n".encode())
        done = self.ended("cat", "fec.stack", "v", "D=ro:data", "H=ro:hash", "P=ro:parity")
        is_restored = len(self.gone) <= self.roots
        end = len(self.whole[0]) if is_restored else self.gone[0] * tree.data_block
        self.check("cat: status", done.returncode, 0 if is_restored else 3)
        self.check("cat: as formatted", done.stdout == self.whole[0][:end], True)

    def tried(self):
        """As many blocks of a round as a codeword has bytes of parity come back, and of one more none is written."""
        for name, content in zip(("data", "hash", "parity"), (*self.stands, self.parity)):
            save(self.room, name, content)
        self.check_read()
        lines, status = self.run("repair", "--fec", "parity", "--fec-roots", str(self.roots), "data", "hash", self.root.hex())
        left = load(self.room, "data"), load(self.room, "hash")
        comes_back = len(self.gone) <= self.roots
        self.check("repair --fec: what is left", left == (self.whole if comes_back else self.stands), True)
        told = [b"repaired data %d parity" % it for it in self.gone] if comes_back else []
        self.check("repair --fec", (lines, status), (told + self.told(*left)[0], 3))


def main():
    checks = Checks()
    built = tempfile.mkdtemp(prefix="unreadable.")
    place = tempfile.mkdtemp(prefix="unreadable.", dir="/dev/shm" if os.path.isdir("/dev/shm") else None)
    try:
        library = f"{built}/unreadable.so"
        source = f"{TOP}/scripts/gate/unreadable_sectors.c"
        subprocess.run(["cc", "-shared", "-fPIC", "-O2", "-o", library, source, "-ldl"], check=True)
        for number, dice, label in random_cases(WORDS):
            kind = ParityCase if number % 4 == 3 else Case
            checks.attempt(label, Wrong, kind(dice, place, library).tried)
    finally:
        shutil.rmtree(place, ignore_errors=True)
        shutil.rmtree(built, ignore_errors=True)
    return checks.end("unreadable blocks")


if __name__ == "__main__":
    parser = argparse.ArgumentParser()
    add_cases(parser, 40)
    parser.add_argument("program", nargs="?")
    WORDS = parser.parse_args()
    if not WORDS.program:
        subprocess.run([f"{TOP}/scripts/lib/built.sh", "dmstack"], check=True)
    PROGRAM = os.path.realpath(WORDS.program or f"{TOP}/crates/dmstack/out/dmstack")
    sys.exit(main())
