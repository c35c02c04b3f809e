#!/usr/bin/env python3
"""Says what the proof of a crate costs: its seconds of processor time from nothing, and its costliest functions.

    proof_times.py [--most 3] [--built] CRATE..

The libraries below are built first where they aren't; with --built out/ is used as it is, if `rt ci` has just
made it. Each crate is checked alone, with its tests, by one job, so that the time between two of the checker's lines is that of
the function in the second one, with the modules that only it asked for; the first one that is told also has all that is read at
the start.
"""
import argparse
import os
import resource
import subprocess
import sys
import tempfile
import time

sys.dont_write_bytecode = True
sys.path.insert(0, os.path.join(os.path.dirname(os.path.realpath(__file__)), "../lib"))
from build import in_chains
from kit import ALL_PROVED, CHECKED, TOP, begin, crate_of, lock, otherwise, words_of_check


def cpu():
    used = resource.getrusage(resource.RUSAGE_CHILDREN)
    return used.ru_utime + used.ru_stime


def times_of(crate, kept):
    """The seconds of each function, the dearest first, and whether the crate is proved."""
    found, last, is_proved = [], time.monotonic(), False
    how = {"cwd": crate.folder, "stdin": subprocess.DEVNULL, "stdout": subprocess.PIPE, "stderr": subprocess.STDOUT, "text": True}
    flags = ["--jobs", "1", "--progress", *["--test"] * bool(crate.has_tests())]
    with subprocess.Popen(words_of_check(crate, flags, kept), **how) as running:
        for line in running.stdout:
            told = CHECKED.match(line)
            if told:
                found.append((time.monotonic() - last, told[1]))
                last = time.monotonic()
            is_proved = is_proved or line.startswith(ALL_PROVED)
    return sorted(found, reverse=True), is_proved


def main():
    parser = argparse.ArgumentParser(description=__doc__, formatter_class=argparse.RawDescriptionHelpFormatter)
    parser.add_argument("crates", nargs="+", metavar="CRATE")
    parser.add_argument("--most", type=int, default=3, help="how many functions of each are printed")
    parser.add_argument("--built", action="store_true", help="take the libraries in out/ as they are")
    words = parser.parse_args()
    os.chdir(TOP)
    begin()
    for crate in map(crate_of, words.crates):
        below = [] if words.built else [it for it in crate.below() if not it.is_built()]
        held = lock(below)
        if not in_chains(below, lambda it, jobs: it.build_rlib(["--jobs", str(jobs)], anew=False) == 0):
            return 1
        for it in held:
            os.close(it)
        before = cpu()
        with tempfile.TemporaryDirectory(prefix="times-") as kept:
            found, is_proved = times_of(crate, kept)
        if not found:
            otherwise("tells no function of a check")
        dearest = ", ".join(f"{name.split('::', 1)[1]} {seconds:.0f}" for seconds, name in found[: words.most])
        print(f"{crate.name}: {cpu() - before:.0f} s, {len(found)} functions{'' if is_proved else ', NOT PROVED'}; {dearest}", flush=True)
    return 0


if __name__ == "__main__":
    sys.exit(main())
