#!/usr/bin/env python3
"""Cuts copies off by a signal, at some times, and small ones at each call that changes a file, and lets them go on by their maps.

cut_copies.py PROGRAM: after each interruption the map is one of the whole device, marks no sector that the image lacks,
and is at most one turn late; and the copy that continues with it ends as one that wasn't interrupted. Where ddrescuelog is installed, it
reads each of these maps, and says of them what they say. A small copy is cut with `--no-scrape` too, and then continued without it.
"""

import glob
import os
import random
import shutil
import signal
import subprocess
import sys
import tempfile
import time

sys.dont_write_bytecode = True
sys.path.insert(0, os.path.join(os.path.dirname(os.path.realpath(__file__)), "../lib"))
from cut_calls import Cutter, Unlike

SECTOR = 512
TURN = 131072
SECTORS = 3 * TURN + 4096
# Of which some can't be read.
LOST = range(TURN - 100, TURN + 200)
CUTS = 8
# A small disk, and its unreadable sectors, which a map lacks.
FEW = 2048
HOLES = [range(300, 301), range(400, 402), range(900, 1200), range(1900, 1901)]


def blocks_of(path):
    """The state, and of each longest run of one mark in the map its first sector, its sectors and its mark."""
    with open(path) as it:
        state, *lines = [line.split() for line in it.read().splitlines() if not line.startswith("#")]
    found = []
    for at, size, mark in lines:
        if found and found[-1][2] == mark:
            found[-1] = (found[-1][0], found[-1][1] + int(size) // SECTOR, mark)
        else:
            found.append((int(at) // SECTOR, int(size) // SECTOR, mark))
    return state[1], found


def count(blocks, mark):
    return sum(size for _, size, it in blocks if it == mark)


def listed_by_log(path, mark):
    """How many sectors of a map ddrescuelog lists of that mark."""
    run = subprocess.run(["ddrescuelog", f"--list-blocks={mark}", f"--block-size={SECTOR}", path],
                         capture_output=True, text=True)
    if run.returncode:
        raise Unlike("ddrescuelog doesn't read the map: " + run.stderr)
    return len(run.stdout.split())


def write_disk(sectors):
    drawn = random.Random(1)
    with open("disk", "wb") as it:
        for _ in range(sectors * SECTOR >> 20):
            it.write(drawn.randbytes(1 << 20))
        it.truncate(sectors * SECTOR)


class Copies:
    """The files, and a copy that isn't cut."""

    def __init__(self, program, sectors, lines, binding):
        self.program, self.sectors, self.binding = program, sectors, binding
        write_disk(sectors)
        with open("stack", "w") as it:
            it.write("v,,,ro," + ",".join(lines) + "\n")
        self.begin("whole")
        self.ended = self.run("whole").communicate()[0]

    def begin(self, name):
        for it in (name, name + ".map", *glob.glob(name + ".map.dmstack-new*")):
            if os.path.exists(it):
                os.remove(it)
        with open(name, "wb") as it:
            it.truncate(self.sectors * SECTOR)

    def words(self, name, options=()):
        return ["copy", *options, "--map", name + ".map", "stack", "v", name, self.binding]

    def run(self, name, options=()):
        return subprocess.Popen([self.program, *self.words(name, options)], stdout=subprocess.PIPE, stderr=subprocess.STDOUT)

    def check_cut(self, name):
        """The map that an interruption left, and the sectors that it marks as recovered."""
        if not os.path.exists(name + ".map"):
            return
        state, blocks = blocks_of(name + ".map")
        if sum(size for _, size, _ in blocks) != self.sectors:
            raise Unlike("a map of another size")
        if state == "+" and count(blocks, "?"):
            raise Unlike("a finished map with sectors that weren't tried")
        with open("disk", "rb") as disk, open(name, "rb") as out:
            for at, size, mark in blocks:
                if mark == "+":
                    disk.seek(at * SECTOR)
                    out.seek(at * SECTOR)
                    if disk.read(size * SECTOR) != out.read(size * SECTOR):
                        raise Unlike("the map marks a sector as recovered that the image lacks")
        for mark in "+-?/" if shutil.which("ddrescuelog") else "":
            if listed_by_log(name + ".map", mark) != count(blocks, mark):
                raise Unlike(f"ddrescuelog lists other sectors of the mark {mark}")

    def check_end(self, name):
        """It ended as the copy that wasn't cut."""
        if subprocess.run(["cmp", "-s", name, "whole"]).returncode:
            raise Unlike(f"{name} is another one")
        if blocks_of(name + ".map") != blocks_of("whole.map"):
            raise Unlike(f"{name}.map is another one")

    def cut(self, delay):
        """A copy that is interrupted after so many seconds and continued, as often as it isn't at its end."""
        name = "cut"
        self.begin(name)
        cuts = 0
        while True:
            process = self.run(name)
            time.sleep(delay)
            process.send_signal(signal.SIGKILL)
            output = process.communicate()[0]
            if process.returncode != -signal.SIGKILL:
                break
            cuts += 1
            self.check_cut(name)
            delay *= 1.5
        self.check_last(name, process.returncode, output)
        return cuts

    def check_last(self, name, status, output):
        if status != 3 or output.splitlines()[-1] != self.ended.splitlines()[-1]:
            raise Unlike(f"the last copy ended by {status}: {output[-200:]}")
        self.check_end(name)

    def continue_cut(self, name, options):
        """Without scraping the copy first ends, and then goes on with it."""
        for it in [options, []] if options else [options]:
            process = self.run(name, it)
            output = process.communicate()[0]
            self.check_cut(name)
        self.check_last(name, process.returncode, output)

    def cut_at_calls(self, options):
        """A copy that is killed before each call that changes a file, and continued."""
        cutter, cuts = Cutter(self.program), 0
        for _, _, _ in cutter.cuts(self.words("cut", options), "change", lambda: self.begin("cut"), 3):
            cuts += 1
            self.check_cut("cut")
            self.continue_cut("cut", options)
        return cuts


def large(program):
    lines = [f"0 {LOST[0]} linear D 0", f"{LOST[0]} {len(LOST)} error",
             f"{LOST[-1] + 1} {SECTORS - LOST[-1] - 1} linear D {LOST[-1] + 1}"]
    return Copies(program, SECTORS, lines, "D=ro:disk")


def small(program):
    at, lines = 0, ["0 +"]
    for hole in HOLES:
        lines += [f"{at * SECTOR} {(hole[0] - at) * SECTOR} +", f"{hole[0] * SECTOR} {len(hole) * SECTOR} -"]
        at = hole[-1] + 1
    with open("holes", "w") as it:
        it.write("\n".join(lines) + f"\n{at * SECTOR} {(FEW - at) * SECTOR} +\n")
    return Copies(program, FEW, [f"0 {FEW} linear D 0"], "D=ro%holes:disk")


def main():
    program = os.path.abspath(sys.argv[1])
    cuts, failed = 0, 0
    with tempfile.TemporaryDirectory() as room:
        os.chdir(room)
        begun = time.monotonic()
        copies = large(program)
        whole = time.monotonic() - begun
        for at in range(CUTS):
            try:
                cuts += copies.cut(whole * (at + 1) / (CUTS + 1) / 4)
            except Unlike as it:
                failed += 1
                print(f"cut {at}: {it}")
        few, at_calls = small(program), 0
        for options in ([], ["--no-scrape"], ["--differing"]):
            try:
                at_calls += few.cut_at_calls(options)
            except Unlike as it:
                failed += 1
                print(f"cut at a call {options}: {it}")
        os.chdir("/")
    if not cuts or not at_calls:
        failed += 1
        print("no copy was cut")
    print(f"copies that were cut off: {cuts} cuts at some time, {at_calls} at a call, {failed} failed")
    sys.exit(failed != 0)


if __name__ == "__main__":
    main()
