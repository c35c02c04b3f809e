#!/usr/bin/env python3
"""Says where the time of a crate's last build went, by kinds of modules and by modules, and checks nothing itself.

    module_times.py [--most 5] CRATE..

It goes by the times at which the checker wrote its modules into out/incremental. They are of the clock, so they grow where other
processes take processors, and they mean something only after a build with one job. The kinds are those of rattle's modules: Lts is
the borrow checker's part of a function, Proof the search for its goals, Answers what is written of them, lemmas the files of proofs/,
and root the crate's facade with all that is loaded before it. A pause of five minutes divides one build from the next, and the last one is counted.
"""
import argparse
import glob
import os
import sys
from collections import Counter

sys.dont_write_bytecode = True
sys.path.insert(0, os.path.join(os.path.dirname(os.path.realpath(__file__)), "../lib"))
from kit import crate_of

PAUSE = 300
END = ".oantt"


def modules_of(crate):
    """The seconds that each module of the last build took, by its name below the crate."""
    files = glob.glob(f"{glob.escape(crate.folder)}/out/incremental/*/Rattle-{crate.name}*{END}")
    written = sorted((os.stat(it).st_mtime, os.path.basename(it)) for it in files)
    found, last = Counter(), written[0][0] if written else 0
    for at, file in written:
        if at - last > PAUSE:
            found.clear()
        else:
            name = file[len("Rattle-") + len(crate.name) : -len(END)].lstrip("-")
            found[name or "root"] += at - last
        last = at
    return found


def kind_of(crate, name):
    """The last part of the name of a module that rattle made, `lemmas`, or `root`."""
    folder, _, rest = name.partition(".")
    if not rest:
        return "root"
    is_ours = os.path.isfile(f"{crate.folder}/{folder}/{rest.replace('.', '/')}.antt")
    last = rest.rpartition(".")[2].partition("-")[0]
    return last if last == "Answers" or not is_ours else "lemmas"


def shown(times, most):
    return ", ".join(f"{name} {seconds:.0f}" for name, seconds in times.most_common(most))


def main():
    parser = argparse.ArgumentParser(description=__doc__, formatter_class=argparse.RawDescriptionHelpFormatter)
    parser.add_argument("crates", nargs="+", metavar="CRATE")
    parser.add_argument("--most", type=int, default=5, help="how many kinds and modules of each are printed")
    words = parser.parse_args()
    for crate in map(crate_of, words.crates):
        modules, kinds = modules_of(crate), Counter()
        if not modules:
            print(f"{crate.name}: no build kept its modules")
            continue
        for name, seconds in modules.items():
            kinds[kind_of(crate, name)] += seconds
        print(f"{crate.name}: {sum(modules.values()):.0f} s; {shown(kinds, words.most)}; {shown(modules, words.most)}")
    return 0


if __name__ == "__main__":
    sys.exit(main())
