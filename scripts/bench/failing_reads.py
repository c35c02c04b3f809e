#!/usr/bin/env python3
"""Counts the failing reads of `copy`, with and without `--map`, and of GNU ddrescue on five disks with unreadable sectors.

failing_reads.py PROGRAM: for each disk a line without and one with `--no-scrape` (`-n`): how many reads failed before the last
64 KiB were read, before the last readable sector was, and in all, of PROGRAM with a map and without one, and of ddrescue
(`-b 512 -c 128`), and how many sectors each lacks, and how many reads fail as PROGRAM and ddrescue go on twice by their own maps. A
line that ends in `more` has more than 1.1 times ddrescue's failing reads, or lacks a sector that ddrescue has. Without
`--no-scrape` that is a failure. Then one of the two goes on by the map and the copy that
the other one left with `--no-scrape`, and by a map of the other's whole copy: it must lack the unreadable sectors alone. It needs cc and
ddrescue.
"""

import os
import random
import subprocess
import sys
import tempfile

SECTOR = 512
SECTORS = 65536
# How many times as many reads as of ddrescue may fail.
RATIO = 1.1

# Logs each read of the file `disk`, and fails those of a sector that BAD names: `at n ok`.
LIBRARY = r"""
#define _GNU_SOURCE
#include <dlfcn.h>
#include <errno.h>
#include <stdio.h>
#include <stdlib.h>
#include <string.h>
#include <unistd.h>
static unsigned char bad[65536];
static FILE *notes;
__attribute__((constructor)) static void start(void) {
    FILE *it = fopen(getenv("BAD"), "r");
    for (long at; it && fscanf(it, "%ld", &at) == 1;) bad[at] = 1;
    notes = fopen(getenv("NOTES"), "w");
    setvbuf(notes, NULL, _IOLBF, 0);
}
static int is_disk(int fd) {
    char link[64], path[4096];
    snprintf(link, sizeof link, "/proc/self/fd/%d", fd);
    ssize_t n = readlink(link, path, sizeof path - 1);
    if (n < 5) return 0;
    path[n] = 0;
    return !strcmp(path + n - 5, "/disk");
}
static int refuse(off64_t at, size_t n) {
    int ok = 1;
    for (off64_t it = at / 512; it < 65536 && it * 512 < at + (off64_t)n; it++) ok &= !bad[it];
    fprintf(notes, "%lld %zu %d\n", (long long)at, n, ok);
    return !ok;
}
ssize_t pread64(int fd, void *bytes, size_t n, off64_t at) {
    ssize_t (*real)(int, void *, size_t, off64_t) = dlsym(RTLD_NEXT, "pread64");
    if (is_disk(fd) && refuse(at, n)) { errno = EIO; return -1; }
    return real(fd, bytes, n, at);
}
ssize_t pread(int fd, void *bytes, size_t n, off_t at) { return pread64(fd, bytes, n, at); }
ssize_t read(int fd, void *bytes, size_t n) {
    ssize_t (*real)(int, void *, size_t) = dlsym(RTLD_NEXT, "read");
    if (is_disk(fd) && refuse(lseek64(fd, 0, SEEK_CUR), n)) { errno = EIO; return -1; }
    return real(fd, bytes, n);
}
"""


def disks():
    """Each disk's name, and its unreadable sectors."""
    singles = random.Random(1)
    yield "hole of 1 MiB", range(16384, 18432)
    yield "five holes of 256 KiB", [at for first in (6000, 18000, 30000, 42000, 54000) for at in range(first, first + 512)]
    yield "4 MiB at the start", range(8192)
    yield "20 single sectors", singles.sample(range(SECTORS - 256), 20)
    yield "200 single sectors", singles.sample(range(SECTORS - 256), 200)


def reads_of(room, command):
    """The failing reads before the last 64 KiB were read, before the last sector was that could be, and in all."""
    notes = f"{room}/notes"
    environment = {**os.environ, "LD_PRELOAD": f"{room}/reads.so", "BAD": f"{room}/bad", "NOTES": notes}
    subprocess.run(command, cwd=room, env=environment, stdout=subprocess.DEVNULL, stderr=subprocess.DEVNULL)
    before, last, failed, reached, seen = 0, 0, 0, False, set()
    with open(notes) as it:
        for line in it:
            at, count, ok = map(int, line.split())
            reached |= ok and at + count > SECTORS * SECTOR - 65536
            failed += not ok
            before += not ok and not reached
            sectors = set(range(at // SECTOR, (at + count) // SECTOR)) if ok else set()
            last = failed if sectors - seen else last
            seen |= sectors
    return before, last, failed


def lost(room, path):
    """The sectors of the copy that aren't the disk's."""
    with open(f"{room}/disk", "rb") as disk, open(f"{room}/{path}", "rb") as copy:
        return [at for at in range(SECTORS) if disk.read(SECTOR) != copy.read(SECTOR)]


def prepare(room, bad):
    with open(f"{room}/bad", "w") as it:
        it.write("\n".join(map(str, bad)))
    for path in ("ours", "plain", "theirs", "map", "log"):
        if os.path.exists(f"{room}/{path}"):
            os.remove(f"{room}/{path}")
    for path in ("ours", "plain", "theirs"):
        with open(f"{room}/{path}", "w") as it:
            it.truncate(SECTORS * SECTOR)


def commands(program, copy, log, scrapes):
    """The two programs that go on by a map and a copy."""
    options = ([], []) if scrapes else (["--no-scrape"], ["-n"])
    kept = ["--map", log] if log else []
    return ([program, "copy", *options[0], *kept, "stack", "a", copy, "D=ro:disk"],
            ["ddrescue", "-q", *options[1], "-b", "512", "-c", "128", "disk", copy, log])


def compare(room, program, name, bad, scrapes):
    prepare(room, bad)
    ours = reads_of(room, commands(program, "ours", "map", scrapes)[0])
    plain = reads_of(room, commands(program, "plain", "", scrapes)[0])
    theirs = reads_of(room, commands(program, "theirs", "log", scrapes)[1])
    mine, bare, others = (lost(room, path) for path in ("ours", "plain", "theirs"))
    again = [sum(reads_of(room, commands(program, copy, log, scrapes)[which])[-1] for _ in range(2))
             for which, copy, log in ((0, "ours", "map"), (1, "theirs", "log"))]
    lacks = not set(mine) | set(bare) <= set(others)
    more = lacks or again[0] > again[1] or any(max(a, b) > RATIO * c for a, b, c in zip(ours, plain, theirs))
    counts = [", ".join(map(str, it)) for it in (ours, plain, theirs)]
    print(f"{name}{'' if scrapes else ', --no-scrape'}: {counts[0]} failed, without a map {counts[1]}, ddrescue {counts[2]};"
          f" lacks {len(mine)}, {len(bare)}, {len(others)}; again {again[0]}, {again[1]}" + (" more" if more else ""))
    return (scrapes or again[0] > again[1]) and more


def hand_over(room, program, name, bad, scrapes):
    """One program goes on where the other one ended."""
    prepare(room, bad)
    failed = False
    for first, copy, log in ((0, "ours", "map"), (1, "theirs", "log")):
        reads_of(room, commands(program, copy, log, scrapes)[first])
        second = reads_of(room, commands(program, copy, log, True)[1 - first])[-1]
        lacks = lost(room, copy)
        failed |= lacks != bad
        print(f"{name}, {('copy', 'ddrescue')[1 - first]} after {('copy', 'ddrescue')[first]}"
              f"{'' if scrapes else ' without scraping'}: {second} failed, lacks {len(lacks)}" + (" others" if lacks != bad else ""))
    return failed


def main():
    if len(sys.argv) != 2:
        sys.exit(__doc__)
    program = os.path.realpath(sys.argv[1])
    with tempfile.TemporaryDirectory() as room:
        with open(f"{room}/reads.c", "w") as it:
            it.write(LIBRARY)
        subprocess.run(["cc", "-shared", "-fPIC", "-O2", "-o", "reads.so", "reads.c", "-ldl"], cwd=room, check=True)
        with open(f"{room}/disk", "wb") as it:
            it.write(b"".join(b"%511d\n" % at for at in range(SECTORS)))
        with open(f"{room}/stack", "w") as it:
            it.write(f"a,,,ro,0 {SECTORS} linear D 0\n")
        sys.exit(any([check(room, program, name, sorted(bad), scrapes)
                      for check in (compare, hand_over) for name, bad in disks() for scrapes in (True, False)]))


main()
