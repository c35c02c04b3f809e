#!/usr/bin/env python3
"""Kills a format over an older image at each of its calls, in turn, with a superblock and without one.

cut_formats.py PROGRAM: what a cut leaves is the older image as it was, or a file without a superblock, or the new image as a
whole. So a superblock is never before a tree that isn't its own. The zeros over an old superblock must be synced before anything else
is written, also those of a format that was killed, and all at the end.
"""

import os
import random
import sys
import tempfile

sys.dont_write_bytecode = True
sys.path.insert(0, os.path.join(os.path.dirname(os.path.realpath(__file__)), "../lib"))
from cut_calls import Cutter, Unlike

SIGNATURE = b"verity\0\0"
SIZES = ["--data-block", "512", "--hash-block", "512"]
UUID = "6c0b2c0e-5a0d-4b5c-9a44-1d1f6a3b2c7e"
BLOCKS = 700


def content_of(path):
    with open(path, "rb") as it:
        return it.read()


class Formats:
    """An older image, and its data changed."""

    def __init__(self, program):
        self.cutter = Cutter(program)
        drawn = random.Random(1)
        self.old, self.new = (drawn.randbytes(BLOCKS * 512) for _ in range(2))

    def run(self, words):
        return self.cutter.run(["format", *SIZES, *words])[0]

    def try_all(self, name, words, first, is_one, new=("--uuid", UUID)):
        """Each cut of a format by these words and the new one's own, over an image whose superblock is at that byte of HASH."""
        words = [*words, "image" if is_one else "data", "image"]
        new = ["--salt", "02", *new, *words]

        def prepare(data):
            with open("data", "wb") as it:
                it.write(data)
            if is_one:
                with open("image", "r+b" if os.path.exists("image") else "wb") as it:
                    it.write(data)

        def restore():
            with open("image", "wb") as it:
                it.write(before)

        if os.path.exists("image"):
            os.remove("image")
        prepare(self.old)
        if self.run([*([] if "--grow" in words else ["--grow"]), "--salt", "01", "--uuid", UUID, *words]):
            raise Unlike(f"{name}: the older image isn't made")
        prepare(self.new)
        before = content_of("image")
        if self.run(new):
            raise Unlike(f"{name}: the new image isn't made")
        after = content_of("image")
        changes, cuts = [], 0
        for number, call, path in self.cutter.cuts(["format", *SIZES, *new], "device", restore):
            changes += [call] * (call != "read" and os.path.basename(path) == "image")
            cuts += 1
            left = content_of("image")
            if left not in (before, after) and left[first:first + 8] == SIGNATURE:
                raise Unlike(f"{name}: killed at call {number}, a superblock is before another tree")
        if content_of("image") != after:
            raise Unlike(f"{name}: a format that isn't cut leaves another image")
        if changes[:2] != ["write", "sync"] or changes[-1] != "sync":
            raise Unlike(f"{name}: not synced after the zeros, or in the end: {changes}")
        with open("image", "r+b") as it:
            it.seek(first)
            it.write(bytes(512))
        return cuts + self.try_zeros(name, ["format", *SIZES, *new])

    def try_zeros(self, name, words):
        """Each cut of a format up to its first write, over zeros that a killed one may have left unsynced. It must sync before that."""
        calls = []
        while "write" not in calls:
            met = self.cutter.run(words, "device", len(calls) + 1)[2]
            if met is None:
                raise Unlike(f"{name}: nothing is written")
            calls.append(met[0] if os.path.basename(met[1]) == "image" else "other")
        if "sync" not in calls:
            raise Unlike(f"{name}: zeros that a killed format may have left aren't synced")
        return len(calls)


def main():
    program = os.path.abspath(sys.argv[1])
    with tempfile.TemporaryDirectory() as room:
        os.chdir(room)
        formats = Formats(program)
        cuts = formats.try_all("two files", [], 0, False)
        cuts += formats.try_all("grown", ["--grow"], 0, False)
        cuts += formats.try_all("at an offset", ["--hash-offset", "1024"], 1024, False)
        at_end = ["--blocks", str(BLOCKS), "--hash-offset", str(BLOCKS * 512)]
        cuts += formats.try_all("one file", at_end, BLOCKS * 512, True)
        bare = ["--no-superblock"]
        cuts += formats.try_all("without a superblock", [], 0, False, bare)
        cuts += formats.try_all("without one at an offset", ["--hash-offset", "1024"], 1024, False, bare)
        cuts += formats.try_all("without one in one file", at_end, BLOCKS * 512, True, bare)
    print(f"cut_formats: {cuts} cuts")


if __name__ == "__main__":
    try:
        main()
    except Unlike as unlike:
        sys.exit(f"cut_formats: {unlike}")
