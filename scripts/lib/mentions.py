"""What the documents name and the sources lack, for scripts/gate/rules.py: names in backticks, and links."""
import glob
import os
import re

from sources import TOP, text_of

SOURCES = ("crates/*/src/**/*", "crates/*/specs/**/*", "crates/*/proofs/**/*", "crates/*/*/*.edit", "scripts/**/*", "tests/rows/*/*", "examples/**/*", "man/*")
TOKEN = re.compile(r"[^\s(){}\[\],;.:/\"'`<>|=&*!λ]+")
SPAN = re.compile(r"`([^`\n]+)`")
NAME = re.compile(r"[A-Za-z_][\w:/.+-]*(?:\(\))?")
LINK = re.compile(r"\[[^\]]*\]\(([^)\s]+)\)")


def documents():
    return sorted(["README.md", *glob.glob("docs/*.md"), *glob.glob("crates/*/README.md"), *glob.glob("scripts/**/README.md", recursive=True)])


def lines_of(path):
    """The lines of a document with their numbers, but for those of its examples, which are run."""
    is_example = False
    for number, line in enumerate(text_of(path).split("\n"), 1):
        if line.startswith("```"):
            is_example = not is_example
        elif not is_example and not line.startswith("    "):
            yield number, line


def known_names():
    """The words of the sources, and the names of their files, with the ending and without; documents and lists of names are none."""
    found = set()
    for it in (file for pattern in SOURCES for file in glob.glob(pattern, recursive=True)):
        found |= {*re.split(r"[/.]", it), os.path.basename(it)}
        if os.path.isfile(it) and not it.endswith((".md", "/rules.txt", "/calls.txt")):
            with open(it, encoding="utf-8", errors="replace") as file:
                found.update(TOKEN.findall(file.read()))
    return found | {*TOKEN.findall(text_of("crates.txt"))} | {*os.listdir(TOP)} | {*glob.glob("docs/*"), *map(os.path.basename, glob.glob("docs/*"))}


def is_known(name, known):
    """A path from the top has to be there; of another name each part has to be a word of the sources."""
    if name.split("/")[0] in ("crates", "docs", "examples", "man", "scripts", "tests") and "/" in name:
        return bool(glob.glob(name.replace("NAME", "*")))
    return name in known or all(it in known for it in re.split(r"[:/.()]+", name) if it)


def unknown_names(known):
    """The names in backticks that the sources lack, each with its document."""
    for path in documents():
        for _number, line in lines_of(path):
            for span in SPAN.findall(line):
                if NAME.fullmatch(span) and ".." not in span and not is_known(span, known):
                    yield path, span


def anchors_of(path):
    """The names by which a document's headings are linked."""
    heads = re.findall(r"^#+ (.*)$", text_of(path), re.M)
    return {re.sub(r"[^\w\- ]", "", it.lower()).replace(" ", "-") for it in heads}


def broken_links():
    for path in documents():
        for _number, line in lines_of(path):
            for link in LINK.findall(line):
                to, _, anchor = link.partition("#")
                there = os.path.normpath(os.path.join(os.path.dirname(path), to)) if to else path
                if re.match(r"\w+:", link):
                    continue
                if not os.path.exists(there) or anchor and there.endswith(".md") and anchor not in anchors_of(there):
                    yield path, link
