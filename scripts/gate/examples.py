#!/usr/bin/env python3
"""Compares the examples of crates/NAME/README.md with code that is proved and run.

The lines of each block ```rust occur, apart from indentation and empty lines, one after another in a file of
crates/NAME/src/, of a crate of tests, crates/*_tests/src/, or of a crate that depends on NAME by crates.txt. An example of a
library calls one of the library's public functions: a free one by its name, others as `Type::name(` or `.name(`.
"""
import glob
import os
import re
import sys

sys.dont_write_bytecode = True
sys.path.insert(0, os.path.join(os.path.dirname(os.path.realpath(__file__)), "../lib"))
from sources import TOP, files_of, functions, text_of


def lines_of(text):
    return [it.strip() for it in text.splitlines() if it.strip()]


def sources(crate):
    return [text_of(it) for it in files_of(crate)]


def stands_on():
    """The crates that depend on each crate."""
    above = {}
    with open(f"{TOP}/crates.txt", encoding="utf-8") as it:
        for line in it:
            name, _, below = line.partition(":")
            for other in below.split():
                above.setdefault(other, []).append(name.split()[0])
    return above


def calls_of(crate):
    """Patterns of calls of the crate's public functions, methods of its traits and of their impls among them."""
    patterns = []
    for it in (made for path in files_of(crate) for made in functions(path)):
        if it.is_pub and not it.owner:
            patterns.append(rf"(?<![\w.:]){it.name}\(")
        elif it.owner and it.is_public():
            patterns += [rf"\b{it.owner}(::<[^>]*>)?::{it.name}\(", rf"\.{it.name}\("]
    return patterns


def stands_in(example, lines):
    return any(lines[at : at + len(example)] == example for at in range(len(lines) - len(example) + 1))


def main():
    passed, failed = 0, 0
    tests = [it for crate in sorted(glob.glob(f"{TOP}/crates/*_tests")) for it in sources(os.path.basename(crate))]
    above = stands_on()
    for readme in sorted(glob.glob(f"{TOP}/crates/*/README.md")):
        with open(readme, encoding="utf-8") as it:
            text = it.read()
        crate = readme.split("/")[-2]
        callers = [it for name in above.get(crate, []) for it in sources(name)]
        files = [lines_of(it) for it in sources(crate) + tests + callers]
        calls = calls_of(crate) if os.path.exists(f"{TOP}/crates/{crate}/src/lib.rt") else [""]
        for block in re.finditer(r"^ *```rust\n(.*?)^ *```$", text, re.M | re.S):
            example = lines_of(block[1])
            wrong = ""
            if not example or not any(stands_in(example, it) for it in files):
                wrong = "is in no file of src/, here, in a crate of tests or in one that depends on this crate"
            elif not any(re.search(it, block[1]) for it in calls):
                wrong = "calls no public function of its crate"
            passed, failed = passed + (not wrong), failed + bool(wrong)
            if wrong:
                row = text.count("\n", 0, block.start()) + 1
                print(f"{os.path.relpath(readme, TOP)}:{row}: this example {wrong}")
    print(f"examples: {passed} passed, {failed} failed")
    return 1 if failed else 0


if __name__ == "__main__":
    sys.exit(main())
