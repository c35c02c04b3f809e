#!/usr/bin/env python3
"""How the time of a repair by parity grows with the image.

repair_times.py PROGRAM: `repair --fec` of an image of 4,096-byte blocks whose data are all wrong under a valid tree. By the
processor time of the process, the least of three runs, 128 MiB may take five times what 32 MiB take; four is linear. The tree
of 128 MiB has one level more than that of 32 MiB: a program that read each block's path anew from the root down took 5.3
times, and one with a linear search for the lost blocks of a round 8.5. On a busy machine times vary, so if they are longer
more runs are made, in turn, up to nine of each.
"""

import os
import random
import subprocess
import sys
import tempfile

MEBIBYTE = 1 << 20
SMALL, LARGE = 32, 128
BLOCK = 4096
MOST = 5
RUNS, MOST_RUNS = 3, 9
DAMAGED = 3


def spent(words):
    """The status of a command, and its processor time in seconds."""
    with subprocess.Popen(words, stdin=subprocess.DEVNULL, stdout=subprocess.DEVNULL) as run:
        _, status, usage = os.wait4(run.pid, 0)
        run.returncode = os.waitstatus_to_exitcode(status)
    return run.returncode, usage.ru_utime + usage.ru_stime


def fill(path, drawn, size):
    with open(path, "wb") as it:
        for _ in range(size):
            it.write(drawn.randbytes(MEBIBYTE))


class Image:
    """An image of so many MiB, none of which can be restored."""

    def __init__(self, program, size):
        drawn = random.Random(size)
        self.files = [f"{name}{size}" for name in ("data", "hash", "parity")]
        self.size, self.times = size, []
        image, tree, parity = self.files
        fill(image, drawn, size)
        sizes = ["--data-block", str(BLOCK), "--hash-block", str(BLOCK)]
        made = subprocess.run([program, "format", *sizes, "--grow", "--fec", parity, "--salt", "01", image, tree], capture_output=True, check=True)
        root = made.stdout.split(b"\n")[0].removeprefix(b"root ").decode()
        fill(image, drawn, size)
        self.words = [program, "repair", "--fec", parity, image, tree, root]

    def repair(self):
        status, time = spent(self.words)
        if status != DAMAGED:
            sys.exit(f"repair_times: the status for {self.size} MiB is {status} and not {DAMAGED}")
        self.times.append(time)


def main():
    program = os.path.abspath(sys.argv[1])
    with tempfile.TemporaryDirectory() as room:
        os.chdir(room)
        small, large = Image(program, SMALL), Image(program, LARGE)
        for number in range(1, MOST_RUNS + 1):
            small.repair()
            large.repair()
            least, most = min(small.times), min(large.times)
            if number >= RUNS and most <= MOST * least:
                break
    print(f"repair_times: {SMALL} MiB {least:.2f} s, {LARGE} MiB {most:.2f} s of processor time, {most / least:.1f} times as long")
    return 1 if most > MOST * least else 0


if __name__ == "__main__":
    sys.exit(main())
