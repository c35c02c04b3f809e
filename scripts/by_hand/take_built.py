#!/usr/bin/env python3
"""Links libraries that other checkouts on this disk have built into one checkout's out/, so that checks above begin over them.

take_built.py TO FROM..: into the checkout TO, of which nothing is built meanwhile, from the checkouts FROM. It takes a library only
if it was built from the same files over the same libraries, by the kit's own sum of them, and prints which ones lack.
"""
import os
import shutil
import sys

sys.dont_write_bytecode = True
sys.path.insert(0, os.path.join(os.path.dirname(os.path.realpath(__file__)), "../lib"))
from kit import crates


def libraries(top):
    return {it.name: it for it in crates(os.path.realpath(top)) if not it.is_program}


def kept_sum(crate):
    try:
        with open(f"{crate.folder}/out/rlib/stamp", encoding="utf-8") as file:
            return file.read()
    except OSError:
        return ""


def take(crate, source):
    kept = f"{crate.folder}/out/rlib"
    shutil.rmtree(kept, ignore_errors=True)
    shutil.copytree(f"{source.folder}/out/rlib", kept, symlinks=True, copy_function=os.link)


def main():
    if len(sys.argv) < 3:
        sys.exit("take_built.py: TO FROM..")
    to, others, lacking = libraries(sys.argv[1]), [libraries(it) for it in sys.argv[2:]], []
    for name, crate in to.items():
        sum_now = crate.stamp()
        if kept_sum(crate) == sum_now:
            continue
        source = next((it[name] for it in others if name in it and kept_sum(it[name]) == sum_now), None)
        if source:
            take(crate, source)
        else:
            lacking.append(name)
    print(f"{len(to) - len(lacking)} libraries stand; not these: {' '.join(lacking) or 'none'}")


if __name__ == "__main__":
    main()
