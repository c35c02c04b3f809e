#!/usr/bin/env python3
"""Checks that memory is allocated by the crate `allocation` alone, whose error is evidence that an allocation was refused.

    allocations.py          checks the sources against the lists below
    allocations.py --list   prints the first list as the sources have it

A place is a call of the library that allocates, or its error named `AllocError` or `AllocFailed`. The crate `allocation` has
such places, tests have, and otherwise only what is listed: crates that call libraries which allocate by themselves and are
trusted, with how many places each has, functions that are trusted, each with the reason, and functions that call methods of
this repository. More places than listed are refused, and fewer too, so the lists only shrink.

It shows that a crate which isn't listed names no such call and neither error, so what it answers when memory runs out is an
`OutOfMemory` or a fault made from one; and that no other crate names what makes the evidence (the prover refuses that too, since `Seal` isn't
exported). It goes by names: it doesn't show that a call of another library doesn't allocate, nor what a clause says of a
refusal. A fault `NoMemory` without evidence is refused by the prover, if the fault's cause asks for it.
"""
import glob
import os
import re
import sys

sys.dont_write_bytecode = True
sys.path.insert(0, os.path.join(os.path.dirname(os.path.realpath(__file__)), "../lib"))
from sources import TOP, files_of, text_of

PARSER = "`clap`'s table of commands grows within that crate; `command_parser` makes the evidence"
CACHE = "kept blocks grow within `lru`, which makes no evidence; a block that isn't kept is read again, so no call fails"
VALUES = "JSON values and their texts grow within `serde_json`, which makes no evidence"

TESTED = "images of tests"

EXAMPLE = "an example for users of the library, whose errors are `anyhow`'s"

# Of each crate how many places it has, and why.
PLACES = {
    "command_parser": (11, PARSER),
    "example_nbd": (3, EXAMPLE),
    "example_stack": (3, EXAMPLE),
    "example_verified_block": (2, EXAMPLE),
    "find_commands": (38, VALUES),
    "image_commands": (12, VALUES),
    "memory_images": (5, TESTED),
    "partition_commands": (15, VALUES),
    "program_io": (4, VALUES),
    "runs": (9, VALUES),
    "scan_commands": (29, VALUES),
    "stack_commands": (15, VALUES),
    "stack_lines": (3, CACHE),
    "update_commands": (4, VALUES),
    "verified_cache": (5, CACHE),
    "verity_commands": (9, VALUES),
}

# Of functions that are trusted: their crate and name, how many places each has, and why.
TRUSTED = {
    ("dmstack", "main"): (1, "the buffer of standard output; the program's end has no clause on its cause"),
    ("dmstack", "new"): (1, "the buffer of standard error, likewise"),
    ("dmstack", "words_of"): (1, "the program's own arguments, likewise"),
    ("image_files", "first_bytes"): (1, "`std` reads to the end of a stream into a vector of its own growth; the system may answer the same fault"),
    ("image_files", "resolve"): (2, "a path grows within `std`; the system may answer the same fault"),
}

# Of functions that call this repository's own methods by a library's name: how many such calls each has, and of which methods.
# These answer an `OutOfMemory`.
OWN = {
    ("hash_tree", "push_next"): (1, "`LevelBuilder::push`"),
    ("stack_recovery", "mark"): (1, "`Map::push`"),
    ("dm_table", "try_clone"): (14, "`try_clone` of a name's owners, `Options::push` and `Bases::push`"),
    ("rescue_map", "filled"): (1, "`Map::push`"),
    ("rescue_map", "keep_lost"): (1, "`Map::push`"),
    ("rescue_map", "move_marks"): (1, "`Map::push`"),
    ("rescue_map", "settled"): (1, "`Map::push`"),
    ("rescue_map", "stepped"): (1, "`Map::push`"),
    ("rescue_map", "untaken"): (1, "`Map::push`"),
    ("stack_rules", "new"): (1, "`Table::try_clone`"),
    ("table_text", "read_known"): (1, "`Options::push`"),
    ("table_text", "read_bases"): (1, "`Bases::push`"),
}
LISTED = {**TRUSTED, **OWN}

METHODS = """append clone collect extend extend_from_slice insert into_owned or_default or_insert or_insert_with push push_back
    push_front push_str read_to_end read_to_string repeat reserve resize split_off to_mut to_owned to_string to_vec try_clone try_collect""".split()
CALL = re.compile(
    rf"\.(?:{'|'.join(METHODS)})\((?!\))|\.(?:clone|to_vec|to_owned)\(\)|\b(?:Vec|VecDeque|String|PathBuf|(?:Hash|BTree|Index)(?:Map|Set))::(?!new\()\w+\("
    r"|\b(?:Box|Rc|Arc|BufReader|BufWriter|Command|Arg)::new\(|\b(?:format|vec|json)!\(?\[?in |\bwrite(?:ln)?!\(|\bAlloc(?:Error|Failed)\b"
)
FUNCTION = re.compile(r" *(?:pub(?:\(\w+\))? )?(?:const )?fn (\w+)")
# What makes evidence, by the crate whose proofs alone may name it: of a refused allocation, and of a call of the system.
EVIDENCE = {
    "allocation": re.compile(r"\blibrary-refused\b|\ballocation\.specs\.declared\.seal\.Seal\b"),
    "command_parser": re.compile(r"\bclap-refused\b|\bcommand_parser\.specs\.declared\.seal\.Seal\b"),
    "block_device": re.compile(r"\bwas-(?:opened|said-of-path|said-of-file|resized|told|unlocked|called)\b|\bblock_device\.specs\.declared\.seal\.Seal\b"),
    "image_files": re.compile(r"\bwas-(?:made|asked)\b|\bimage_files\.(?:specs\.declared\.seal\.Seal|proofs\.FileLemmas)\b"),
}
EXPORT = re.compile(r"\bpub use (?:crate::)?seal\b")
OTHER = re.compile(r"\s*(?://|ghost\b|requires\b|ensures\b)")


def crates():
    found = sorted(os.path.basename(os.path.dirname(it)) for it in glob.glob(f"{TOP}/crates/*/src"))
    return [it for it in found if it not in ("allocation", "bench") and not it.endswith("_tests")]


def places_of(crate):
    """The places of a crate: its file, the line, the function that it stands in or above, and the line's text."""
    found = []
    for path in files_of(crate):
        name = ""
        for number, line in enumerate(text_of(path).split("\nmod tests {")[0].split("\n"), 1):
            made = FUNCTION.match(line)
            name = made[1] if made else name
            text = re.sub(r'"(?:[^"\\]|\\.)*"', '""', line)
            if not OTHER.match(line):
                found += [(path, number, name, line.strip())] * len(CALL.findall(text))
    return found


def count_of(crate, places):
    """How many places a crate has, but for those of its listed functions."""
    return sum((crate, it[2]) not in LISTED for it in places)


def faults_of(crate, places):
    faults = []
    found, listed = count_of(crate, places), PLACES.get(crate, (0, ""))[0]
    if found != listed:
        faults.append(f"{crate}: {found} places where {listed} are listed; allocations.py --list prints the list")
        if not listed:
            faults += [f"{path}:{number}: {line}" for path, number, name, line in places if (crate, name) not in LISTED]
    for (owner, name), (listed, _reason) in LISTED.items():
        found = sum(it[2] == name for it in places)
        if owner == crate and found != listed:
            faults.append(f"{crate}: {name} has {found} places where {listed} are listed")
    return faults


def faults_of_evidence():
    """The files of other crates that name what makes evidence, and the crates that export it."""
    files = [it for end in ("rt", "antt") for it in glob.glob(f"{TOP}/crates/*/s*/**/*.{end}", recursive=True)]
    files += glob.glob(f"{TOP}/crates/*/proofs/**/*.antt", recursive=True)
    faults = []
    for path in sorted(os.path.relpath(it, TOP) for it in files):
        crate, text = path.split("/")[1], text_of(path)
        faults += [f"{path}: it names what makes the evidence of {owner}" for owner, name in EVIDENCE.items() if owner != crate and name.search(text)]
        faults += [f"{path}: it exports what makes evidence"] * (EXPORT.search(text) is not None)
    return faults


def main():
    all_places = {crate: places_of(crate) for crate in crates()}
    if sys.argv[1:] == ["--list"]:
        for crate, places in all_places.items():
            if count_of(crate, places):
                print(f'    "{crate}": ({count_of(crate, places)}, {reason_of(crate)}),')
        return
    if sys.argv[1:]:
        sys.exit("allocations.py: it takes no words, or --list")
    faults = [it for crate, places in all_places.items() for it in faults_of(crate, places)]
    faults += faults_of_evidence()
    faults += [f"{crate}: it is listed and isn't there" for crate in {*PLACES, *(it[0] for it in LISTED)} - {*all_places}]
    for fault in faults:
        print(f"allocations.py: {fault}", file=sys.stderr)
    if faults:
        sys.exit(1)
    left = sum(it[0] for it in PLACES.values())
    print(f"allocations.py: {left} places outside of allocation, all listed and trusted, in {len(PLACES)} crates; {len(TRUSTED)} functions are trusted")


def reason_of(crate):
    """The reason of a crate, as the list names it; of a crate that isn't listed one has to be written."""
    reason = PLACES.get(crate, (0, ""))[1]
    return next((name for name, text in globals().items() if name.isupper() and text == reason), '""')


main()
