#!/usr/bin/env python3
"""Cuts repairs of a damaged verity image off by SIGKILL, at moments all over their time, and lets them go on.

cut_repairs.py PROGRAM: an image of 16,384 blocks, of which every third is damaged and half of its tree, is repaired by a copy, and
one with ten damaged blocks in each round of codewords by parity. Behind each cut each block must be as it was or as it was formatted,
those that the run has named as formatted, and copy, parity and superblock as they were; what isn't cut must end with a whole image.
"""
import os
import random
import shutil
import signal
import subprocess
import sys
import tempfile
import time

sys.dont_write_bytecode = True
sys.path.insert(0, os.path.join(os.path.dirname(os.path.realpath(__file__)), "../gate"))
from repaired_images import read, write

BLOCK, BLOCKS, SLOTS = 1024, 16384, 32
ROOTS, LOST = 24, 10
CUTS = 12
# The tree's levels from the lowest on, and the hash block at which each begins.
LEVELS = (512, 16, 1)
FIRST = (18, 2, 1)


class Unlike(Exception):
    """What a repair left that it may not."""


def damaged(content, places):
    changed = bytearray(content)
    for place in places:
        changed[place * BLOCK + place % BLOCK] ^= 1 + place % 255
    return bytes(changed)


class Repairs:
    """The whole image, the damaged one, and the words that repair it."""

    def __init__(self, program, by):
        self.by, dice = by, random.Random(1)
        write("data", dice.randbytes(BLOCKS * BLOCK))
        write("hash", bytes((1 + sum(LEVELS)) * BLOCK))
        write("parity", b"")
        parity = ["--fec", "parity", f"--fec-roots={ROOTS}"]
        sizes = [f"--data-block={BLOCK}", f"--hash-block={BLOCK}"]
        made = subprocess.run([program, "format", "--grow", *sizes, *parity, "data", "hash"], capture_output=True, text=True, check=True)
        root = made.stdout.split()[1]
        self.whole = {name: read(name) for name in ("data", "hash")}
        data, tree = self.damage(dice)
        self.old = {"data": damaged(self.whole["data"], data), "hash": damaged(self.whole["hash"], tree)}
        self.others = {"parity": read("parity")}
        if by == "copy":
            self.others |= {"copy.data": self.whole["data"], "copy.hash": self.whole["hash"]}
        for name, content in self.others.items():
            write(name, content)
        self.words = [program, "repair", *(parity if by == "parity" else []), "data", "hash", root, *(["copy.data", "copy.hash"] if by == "copy" else [])]
        self.begin()
        begun = time.monotonic()
        self.ended = self.run().communicate()[0].split(b"\n")
        self.time = time.monotonic() - begun
        self.check_end()

    def damage(self, dice):
        """The damaged data blocks, and the damaged hash blocks in their file."""
        if self.by == "copy":
            return dice.sample(range(BLOCKS), BLOCKS // 3), dice.sample(range(1, 1 + sum(LEVELS)), sum(LEVELS) // 2)
        rounds = -(-(BLOCKS + sum(LEVELS)) // (255 - ROOTS))
        lost = [it for turn in range(rounds) for it in dice.sample(range(turn, BLOCKS, rounds), LOST)]
        over_good = set(range(LEVELS[0])) - {it // SLOTS for it in lost}
        return lost, [FIRST[0] + it for it in sorted(over_good)[::2]]

    def begin(self):
        for name, content in self.old.items():
            write(name, content)

    def run(self):
        return subprocess.Popen(self.words, stdout=subprocess.PIPE, stderr=subprocess.STDOUT)

    def check(self, output):
        """What a run left, of which these are the lines that came out."""
        named = set()
        for line in output.split(b"\n")[:-1]:
            if line.startswith(b"repaired "):
                kind, *numbers = line.split(b" ")[1 : 4 if line.startswith(b"repaired hash") else 3]
                numbers = [int(it) for it in numbers]
                named.add(("data", numbers[0]) if kind == b"data" else ("hash", FIRST[numbers[0]] + numbers[1]))
        repaired = 0
        for name, whole in self.whole.items():
            left, old = read(name), self.old[name]
            if len(left) != len(whole):
                raise Unlike(f"{name} has another length")
            for at in range(0, len(left), BLOCK):
                part, block = slice(at, at + BLOCK), at // BLOCK
                if left[part] != whole[part] and (left[part] != old[part] or (name, block) in named):
                    raise Unlike(f"block {block} of {name}, {'named' if (name, block) in named else 'not named'}")
                repaired += left[part] == whole[part] != old[part]
        for name, content in self.others.items():
            if read(name) != content:
                raise Unlike(f"{name} is changed")
        return repaired

    def check_end(self):
        if any(read(name) != content for name, content in self.whole.items()):
            raise Unlike("the image isn't whole at the end")

    def cut(self, delay):
        """A repair that is interrupted after so many seconds and started again, as often as it isn't at its end."""
        self.begin()
        cuts = []
        while True:
            process = self.run()
            try:
                output = process.communicate(timeout=delay)[0]
            except subprocess.TimeoutExpired:
                process.send_signal(signal.SIGKILL)
                output = process.communicate()[0]
            if process.returncode != -signal.SIGKILL:
                break
            cuts.append(self.check(output))
            delay *= 1.5
        if process.returncode or output.split(b"\n")[-2] != self.ended[-2]:
            raise Unlike(f"the last repair ended by {process.returncode}: {output[-200:]}")
        self.check(output)
        self.check_end()
        return cuts


def main():
    program = os.path.abspath(sys.argv[1])
    cuts, failed = [], 0
    for by in ("copy", "parity"):
        room = tempfile.mkdtemp()
        os.chdir(room)
        try:
            repairs = Repairs(program, by)
            for at in range(CUTS):
                cuts += repairs.cut(repairs.time * (at + 1) / (CUTS + 1))
        except Unlike as it:
            failed += 1
            print(f"by {by}: {it}")
        finally:
            os.chdir("/")
            shutil.rmtree(room)
    within = sum(1 for it in cuts if it)
    if not within:
        failed += 1
        print("no repair was interrupted after its first block")
    print(f"interrupted repairs: {len(cuts)} interruptions, {within} of them after a repaired block, {2 * CUTS} repairs, {failed} failed")
    return 1 if failed else 0


if __name__ == "__main__":
    sys.exit(main())
