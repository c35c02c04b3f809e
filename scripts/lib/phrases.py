"""The phrases that documents and comments replace by the terms of the field, for scripts/gate/rules.py."""
import glob
import os
import re

from mentions import lines_of
from sources import text_of

# Each phrase with what is written in its place.
REPLACED = {
    "gone over": "scanned",
    "made again": "reconstructed",
    "brought back": "restored",
    "want of memory": "out of memory",
    "given back": "closed, returned",
    "on its medium": "synced, durable",
    "on their media": "synced, durable",
    "planted bug": "mutation",
    "worked row": "example, test vector",
    "refused growth": "failed allocation",
}
PHRASE = re.compile("|".join(rf"\b{it}" for it in REPLACED), re.IGNORECASE)
COMMENT = {".rt": re.compile(r"(?:^|\s)//[/!]? ?(.*)$"), ".antt": re.compile(r"(?:^|\s)--+ (.*)$")}
KINDS = ("*.md", "docs/*.md", "crates/**/*.md", "crates/**/*.rt", "crates/**/*.antt", "scripts/**/*", "man/*.1")
COMMANDS = ("check", "dmstack", "install", "prove")
# Files of scripts/ that are no prose, and this one.
OTHERS = (".txt", ".pyc", "lib/phrases.py")


def paths():
    """The documents, sources, proofs and scripts."""
    found = {it for kind in KINDS for it in glob.glob(kind, recursive=True) if "/out/" not in it and os.path.isfile(it)}
    return sorted(it for it in (*found, *COMMANDS) if not it.endswith(OTHERS))


def prose_of(path):
    """The prose of a file in one line: the comments of a source or proof, a document without its examples, all of a script."""
    ending = os.path.splitext(path)[1]
    if ending == ".md":
        lines = [line for _number, line in lines_of(path)]
    elif ending in COMMENT:
        lines = [it[1] for it in map(COMMENT[ending].search, text_of(path).split("\n")) if it]
    else:
        lines = [re.sub(r"^\s*(#|//|/?\*) ?", "", it) for it in text_of(path).split("\n")]
    return re.sub(r"\s+", " ", " ".join(lines))


def replaced_phrases():
    """How many of these phrases a file has, for each file that has some."""
    counts = {it: len(PHRASE.findall(prose_of(it))) for it in paths()}
    return [(path, count) for path, count in counts.items() if count]
