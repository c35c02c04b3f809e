#!/usr/bin/env python3
"""Measures reads of verified volumes, their service to NBD clients, and `format`, each beside what it is compared with.

    benchmark_reads.py [--mib MIB] [--runs RUNS] NAME=PROGRAM[,BENCH]..

Programs by a name each, with the `bench` of the same build, which the row of single blocks needs. One named `before` stands
beside the others at `format`, and has no other row. Images of MIB mebibytes (256) lie in /dev/shm; of RUNS turns (5) the least
counts. A ratio is the other's time divided by ours: more than 1 is faster. What goes through socat is measured by the clock,
all else by processor time. benchmark_verity.sh builds both programs and calls this. Not a part of the gate.
"""
import argparse
import os
import random
import shutil
import signal
import struct
import subprocess
import sys
import tempfile
import time

SALT = "07" * 32
KEY = "0" * 127 + "7"
# Blocks that are read at random, and how many are asked for before their replies are read.
READS, AHEAD = 32768, 32
LEAST = {}


def take(name, seconds):
    LEAST[name] = min(seconds, LEAST.get(name, seconds))


def run(*words, into=subprocess.DEVNULL):
    """Runs a command, and returns its processor time and its time by the clock."""
    start = time.monotonic()
    child = subprocess.Popen(words, stdin=subprocess.DEVNULL, stdout=into)
    _, status, used = os.wait4(child.pid, 0)
    child.returncode = os.waitstatus_to_exitcode(status)
    if child.returncode:
        sys.exit(f"{' '.join(words)}: status {child.returncode}")
    return used.ru_utime + used.ru_stime, time.monotonic() - start


def measure(name, *words):
    cpu, clock = run(*words)
    take(name, cpu)
    take(f"{name} by the clock", clock)


def said(*words):
    return subprocess.run(words, check=True, capture_output=True, text=True).stdout


def write(name, text):
    with open(name, "w", encoding="utf-8") as file:
        file.write(text)


def make_tree(program, data, tree, size, names):
    """The tree of an image, and its line in a stack of that name."""
    with open(tree, "wb") as file:
        file.truncate(os.path.getsize(data) // size // (size // 32 - 1) * size + (1 << 20))
    words = ["--data-block", str(size), "--hash-block", str(size), "--salt", SALT]
    root = said(program, "format", *words, data, tree).split()[1]
    return root, "v,,,ro," + said(program, "table", tree, root, *names).strip()


def make(program, mib):
    """All images and stacks; the root digests by the size of blocks."""
    with open("data", "wb") as file:
        for _ in range(mib):
            file.write(os.urandom(1 << 20))
    sectors, roots = mib << 11, {}
    for size in (4096, 512):
        roots[size], line = make_tree(program, "data", f"tree-{size}", size, ["DATA", "HASH"])
        write(f"verity-{size}.stack", line)
    units = f"u,,,ro,0 {sectors} crypt aes-xts-plain64 {KEY} 0 DATA 0 1 sector_size:4096"
    write("units.stack", units)
    with open("plain", "wb") as file:
        run(program, "cat", "units.stack", "u", "DATA=ro:data", into=file)
    _, line = make_tree(program, "plain", "tree-units", 4096, ["/dev/mapper/u", "HASH"])
    os.remove("plain")
    write("verity-units.stack", f"{units};{line}")
    write("linear.stack", f"l,,,ro,0 {sectors} linear DATA 0")
    return roots


def serve(command, connections, name):
    """nbdcopy of what a command serves to each connection, through socat, which passes on 256 KiB at a time: with its own 8 KiB it is
    slower than its input."""
    # socat splits its arguments at colons, so the command is in a file.
    write("serve", f"#!/bin/sh\nexec {command}\n")
    os.chmod("serve", 0o755)
    socat = subprocess.Popen(["socat", "-b", "262144", "UNIX-LISTEN:socket,fork", "EXEC:./serve"], start_new_session=True, stderr=subprocess.DEVNULL)
    while not os.path.exists("socket"):
        time.sleep(0.01)
    try:
        measure(name, "nbdcopy", f"--connections={connections}", "nbd+unix:///?socket=socket", "null:")
    finally:
        os.killpg(socat.pid, signal.SIGTERM)
        socat.wait()
        if os.path.exists("socket"):
            os.remove("socket")


def read_at_random(name, program, stack, device, mib, *bindings):
    """Processor time of a service that is asked for single blocks of 4,096 bytes, all hash blocks kept."""
    words = [program, "nbd", "--cache", "4096", stack, device, *bindings]
    child = subprocess.Popen(words, stdin=subprocess.PIPE, stdout=subprocess.PIPE, bufsize=0)
    out = child.stdout.fileno()

    def get(count):
        while count:
            count -= len(os.read(out, count)) or sys.exit(f"{name}: the service ended early")

    get(18)
    child.stdin.write(struct.pack(">I8sII", 3, b"IHAVEOPT", 1, 0))
    get(10)
    order = random.Random(7)
    for first in range(0, READS, AHEAD):
        asked = (struct.pack(">IHHQQI", 0x25609513, 0, 0, first, order.randrange(mib << 8) << 12, 4096) for _ in range(AHEAD))
        child.stdin.write(b"".join(asked))
        get(AHEAD * (16 + 4096))
    child.stdin.write(struct.pack(">IHHQQI", 0x25609513, 0, 2, 0, 0, 0))
    child.stdin.close()
    _, status, used = os.wait4(child.pid, 0)
    child.returncode = os.waitstatus_to_exitcode(status)
    take(name, used.ru_utime + used.ru_stime)


def digest_one_by_one(name, bench):
    """The time of as many digests of blocks of 4,096 bytes by the kit's `sha2`: `bench digest` says how many times as long as
    ours, of which it says the milliseconds for 16,384 blocks."""
    ratio, ours = said(bench, "digest").replace("digest", "").replace("(", "").split()[:2]
    take(name, float(ratio) * float(ours) / 1000 * READS / 16384)


def turn(build, program, bench, roots, mib):
    for size in (4096, 512):
        measure(f"{build} verify {size}", program, "verify", "data", f"tree-{size}", roots[size])
        measure(f"{build} scan {size}", program, "scan", f"verity-{size}.stack", "v", "DATA=ro:data", f"HASH=ro:tree-{size}")
    measure(f"{build} scan units", program, "scan", "units.stack", "u", "DATA=ro:data")
    measure(f"{build} scan linear", program, "scan", "linear.stack", "l", "DATA=ro:data")
    measure(f"{build} scan verity units", program, "scan", "verity-units.stack", "v", "DATA=ro:data", "HASH=ro:tree-units")
    if bench:
        read_at_random(f"{build} random verity", program, "verity-4096.stack", "v", mib, "DATA=ro:data", "HASH=ro:tree-4096")
        read_at_random(f"{build} random linear", program, "linear.stack", "l", mib, "DATA=ro:data")
        digest_one_by_one(f"{build} digests", bench)
    for connections in (1, 4) if has_clients() else ():
        serve(f"{program} nbd verity-4096.stack v DATA=ro:data HASH=ro:tree-4096", connections, f"{build} nbdcopy verity {connections}")
        serve(f"{program} nbd linear.stack l DATA=ro:data", connections, f"{build} nbdcopy linear {connections}")
        serve("nbdkit -s file data", connections, f"{build} nbdkit {connections}")


def formats(build, program):
    measure(f"{build} format", program, "format", "--data-block", "512", "--hash-block", "512", "--salt", SALT, "data", "tree-made")


def has_clients():
    return all(shutil.which(it) for it in ("nbdcopy", "nbdkit", "socat"))


def row(build, what, ours, *others):
    """A row: the sum of the others' times divided by ours."""
    names = [f"{build} {it}" for it in (ours, *others)]
    if all(it in LEAST for it in names):
        mine, theirs = LEAST[names[0]], sum(LEAST[it] for it in names[1:])
        print(f"{build}: {what}: {theirs / mine:.2f} ({theirs:.2f} and {mine:.2f} s)", flush=True)


def rows(build):
    for size in ("4096", "512"):
        row(build, f"scan of a verity volume, blocks of {size}, beside verify", f"scan {size}", f"verify {size}")
    for it in (1, 4):
        clock = "by the clock"
        row(build, f"nbdcopy of it, {it} connections, beside scan", f"nbdcopy verity {it} {clock}", f"scan 4096 {clock}")
        row(build, f"nbdcopy of a linear line, {it} connections, beside nbdkit", f"nbdcopy linear {it} {clock}", f"nbdkit {it} {clock}")
    LEAST[f"{build} cipher"] = LEAST[f"{build} scan units"] - LEAST[f"{build} scan linear"]
    row(build, "a verity line over units of 4096, beside verify and the cipher alone", "scan verity units", "verify 4096", "cipher")
    row(build, "blocks at random, hash blocks kept, beside their scalar digests", "random verity", "digests")
    row(build, "the same, beside these and reads of a linear line", "random verity", "digests", "random linear")
    LEAST.setdefault(f"{build} before", LEAST.get("before format", LEAST[f"{build} format"]))
    row(build, "format, blocks of 512, 32 bytes of salt, beside itself before", "format", "before")


def main():
    words = argparse.ArgumentParser(usage=__doc__)
    words.add_argument("--mib", type=int, default=256)
    words.add_argument("--runs", type=int, default=5)
    words.add_argument("programs", nargs="+")
    said_words = words.parse_args()
    programs = {}
    for it in said_words.programs:
        name, _, paths = it.partition("=")
        program, _, bench = paths.partition(",")
        programs[name] = (os.path.realpath(program), bench and os.path.realpath(bench))
    for name in ("nbdcopy", "nbdkit", "socat"):
        if not shutil.which(name):
            print(f"{name} is not installed: its rows are left out", flush=True)
    with tempfile.TemporaryDirectory(dir="/dev/shm") as room:
        os.chdir(room)
        roots = make(next(iter(programs.values()))[0], said_words.mib)
        shutil.copy("tree-512", "tree-made")
        for _ in range(said_words.runs):
            for build, (program, bench) in programs.items():
                formats(build, program)
                if build != "before":
                    turn(build, program, bench, roots, said_words.mib)
        os.chdir("/")
    for build in programs:
        if build != "before":
            rows(build)


if __name__ == "__main__":
    main()
