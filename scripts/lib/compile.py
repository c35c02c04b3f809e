#!/usr/bin/env python3
"""Compiles the program without its proofs, for dmstack, which sees to it that one run does so at a time.

    compile.py PROGRAM [CPU]

Puts it at PROGRAM whole or not at all, and says on standard error how far it is.
"""
import errno
import os
import shutil
import signal
import subprocess
import sys
import tempfile
import time

# Until what is half made can be removed, an interruption ends it at once; dmstack says so.
for it in (signal.SIGINT, signal.SIGTERM):
    signal.signal(it, signal.SIG_DFL)

sys.dont_write_bytecode = True
from kit import TOP, begin, crate_of, crates, module, program, with_hints

PROGRAM = "dmstack"
# The source of the program's version, how its text begins, and how it begins in a program that is compiled alone.
VERSION = "crates/manual_pages/src/version.rt"
PROVED, COMPILED = 'b"dmstack 1, proved with ', 'b"dmstack 1, compiled and not proved; to be proved with '
# As fast as -O3, and made in four fifths of its time.
HOW = "-O2"
# Of the disk, in MB; what is made takes half.
ROOM = 400
START = time.monotonic()


def tell(text):
    print(f"dmstack: {text}", file=sys.stderr, flush=True)


def unproved(room):
    """A copy of the sources in which the program's version says that it wasn't proved."""
    top = os.path.join(room, "sources")
    for crate in crates():
        shutil.copytree(f"{crate.folder}/src", os.path.join(top, "crates", crate.name, "src"))
    shutil.copy("crates.txt", top)
    with open(os.path.join(top, VERSION), "r+", encoding="utf-8") as file:
        text = file.read()
        if text.count(PROVED) != 1:
            raise OSError(errno.EINVAL, f"no text begins once with {PROVED}", VERSION)
        file.seek(0)
        file.write(text.replace(PROVED, COMPILED))
        file.truncate()
    return top


def compiled(made, cpu):
    """Compiles the program in a folder beside the place that it is for, and returns why it could not."""
    folder = os.path.dirname(made)
    free = shutil.disk_usage(folder).free >> 20
    if free < ROOM:
        return f"{folder} has {free} MB free, and {ROOM} are needed"
    tell("compiling the program without its proofs, in about three minutes; ./prove proves it")
    with tempfile.TemporaryDirectory(prefix="making-", dir=folder) as room:
        crate = crate_of(PROGRAM, unproved(room))
        kept, why = module(crate, room)
        if not kept:
            return why
        tell(f"half way, after {time.monotonic() - START:.0f} s: the sources are read and translated")
        try:
            ready = program(with_hints(kept, crate, HOW, room), HOW, room, cpu)
        except subprocess.CalledProcessError:
            tell("the hints on inlining aren't taken: the program is slower")
            ready = program(kept, HOW, room, cpu)
        os.replace(ready, made)
    return ""


def main():
    for it in (signal.SIGINT, signal.SIGTERM):
        signal.signal(it, lambda *_: sys.exit(1))
    made, cpu = os.path.abspath(sys.argv[1]), (sys.argv[2:] or ["x86-64"])[0]
    os.chdir(TOP)
    begin()
    try:
        why = compiled(made, cpu)
    except subprocess.CalledProcessError as error:
        why = error.stderr or str(error)
    except OSError as error:
        why = f"{error.strerror or error}{f': {error.filename}' if error.filename else ''}"
        why = "the disk is full" if error.errno == errno.ENOSPC else why
    if why:
        tell("not compiled: " + " ".join(why.split())[:300])
        return 1
    tell(f"compiled in {time.monotonic() - START:.0f} s: its proofs haven't been run on this machine; ./prove runs them")
    return 0


if __name__ == "__main__":
    sys.exit(main())
