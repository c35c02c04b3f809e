#!/usr/bin/env python3
"""Kills an `assemble` over an older disk at each of its calls, in turn, with parity and without it.

cut_disks.py PROGRAM: a header of a partition table that a cut leaves, at the beginning or at the end, is that of the older disk,
between whose ends nothing is changed, or that of the new one, between whose ends all is written.
"""

import os
import random
import sys
import tempfile

sys.dont_write_bytecode = True
sys.path.insert(0, os.path.join(os.path.dirname(os.path.realpath(__file__)), "../lib"))
from cut_calls import Cutter, Unlike

SIGNATURE = b"EFI PART"
SECTOR, END = 512, 32768
BLOCKS = 40


def content_of(path):
    with open(path, "rb") as it:
        return it.read()


def headers_of(disk):
    return [it for it in (disk[SECTOR:2 * SECTOR], disk[-SECTOR:]) if it.startswith(SIGNATURE)]


class Disks:
    """Data of an older disk and of a new one."""

    def __init__(self, program):
        self.cutter = Cutter(program)
        drawn = random.Random(1)
        self.old, self.new = (drawn.randbytes(BLOCKS * 4096) for _ in range(2))

    def make(self, name, data, words):
        with open("data", "wb") as it:
            it.write(data)
        if self.cutter.run(words)[0]:
            raise Unlike(f"{name}: a disk isn't made")
        return content_of("disk")

    def try_all(self, name, options):
        """Each cut of the new disk over the older one."""
        old, new = (["assemble", *options, "--draw-from", seed, "disk", "data"] for seed in ("old", "new"))
        before = self.make(name, self.old, old)

        def restore():
            with open("disk", "wb") as it:
                it.write(before)

        after = self.make(name, self.new, new)
        restore()
        cuts = 0
        for number, _, _ in self.cutter.cuts(new, "device", restore):
            cuts += 1
            left = content_of("disk")
            for header in headers_of(left):
                whole = before if header in headers_of(before) else after
                if header not in headers_of(whole) or left[END:-END] != whole[END:-END]:
                    raise Unlike(f"{name}: killed at call {number}, a table is left over other parts")
        if content_of("disk") != after:
            raise Unlike(f"{name}: a disk that isn't cut is another one")
        return cuts


def main():
    program = os.path.abspath(sys.argv[1])
    with tempfile.TemporaryDirectory() as room:
        os.chdir(room)
        disks = Disks(program)
        cuts = disks.try_all("without parity", [])
        cuts += disks.try_all("with parity", ["--fec"])
    print(f"cut_disks: {cuts} cuts")


if __name__ == "__main__":
    try:
        main()
    except Unlike as unlike:
        sys.exit(f"cut_disks: {unlike}")
