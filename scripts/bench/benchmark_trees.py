#!/usr/bin/env python3
"""Measures `verify --all` beside `verify`, and `diff` of two images that differ in ten blocks. Not a part of the gate.

benchmark_trees.py PROGRAM [MIB [RUNS]]: of images of MIB mebibytes (1024) in blocks of 4,096 bytes, each command RUNS times in
turn (9). It prints the least and the median of the processor time in milliseconds; for `diff` beyond that of `version`, which is
the start alone. Images are in a folder of TMPDIR, which has room for two and their trees."""

import os
import random
import subprocess
import sys
import tempfile

BLOCK = 4096
MOST_OF_DIFF = 5.0


def spent(words):
    """Processor time of a run in milliseconds, and its status."""
    with open(os.devnull, "wb") as nowhere:
        child = subprocess.Popen(words, stdout=nowhere)
        _, status, usage = os.wait4(child.pid, 0)
        child.returncode = os.waitstatus_to_exitcode(status)
    return 1000 * (usage.ru_utime + usage.ru_stime), child.returncode


def measured(commands, runs):
    """Of each command by its name the times of its runs, in turn."""
    times = {name: [] for name in commands}
    for _ in range(runs):
        for name, (words, wanted) in commands.items():
            time, status = spent(words)
            if status != wanted:
                sys.exit(f"{name}: status {status}")
            times[name].append(time)
    return {name: (min(it), sorted(it)[len(it) // 2]) for name, it in times.items()}


def formatted(program, path):
    out = subprocess.run([program, "format", "--grow", "--salt", "07", path, path + ".tree"], stdout=subprocess.PIPE, check=True)
    return out.stdout.split()[1].decode()


def main():
    program = os.path.realpath(sys.argv[1])
    mib, runs = (int(it) for it in sys.argv[2:] + ["1024", "9"][len(sys.argv) - 2:])
    with tempfile.TemporaryDirectory() as room:
        old, new = os.path.join(room, "old"), os.path.join(room, "new")
        picked = random.Random(1)
        with open(old, "wb") as one, open(new, "wb") as other:
            for _ in range(mib):
                piece = picked.randbytes(1 << 20)
                one.write(piece)
                other.write(piece)
        with open(new, "r+b") as other:
            for at in picked.sample(range(mib << 8), 10):
                other.seek(at * BLOCK)
                other.write(b"changed!")
        roots = [formatted(program, it) for it in (old, new)]
        passes = measured({
            "verify": ([program, "verify", old, old + ".tree", roots[0]], 0),
            "verify --all": ([program, "verify", "--all", old, old + ".tree", roots[0]], 0),
            "verify --all --json": ([program, "verify", "--all", "--json", old, old + ".tree", roots[0]], 0),
        }, runs)
        trees = [old + ".tree", roots[0], new + ".tree", roots[1]]
        short = measured({
            "version": ([program, "version"], 0),
            "diff": ([program, "diff", *trees], 3),
            "diff --json": ([program, "diff", "--json", *trees], 3),
        }, 3 * runs)
    for name, (least, median) in passes.items():
        print(f"{name}: least {least:.0f} ms, median {median:.0f}; beside verify {least / passes['verify'][0]:.3f}")
    start = short["version"]
    for name in ("diff", "diff --json"):
        least, median = (mine - theirs for mine, theirs in zip(short[name], start))
        print(f"{name}: beyond the start least {least:.2f} ms, median {median:.2f}; at most {MOST_OF_DIFF:.0f} are wanted")


main()
