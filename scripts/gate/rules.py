#!/usr/bin/env python3
"""Checks the rules of the house that nothing else checks, over the sources and the documents.

    rules.py          compares what breaks a rule with the list in rules.txt
    rules.py --list   prints that list as the sources have it; new entries are at the end and lack a reason

The rules are: how many clauses and parameters a function has, how long a clause, a body and a file are; that a crate cites of the
`proofs/` of another one only `proofs/lemmas`; where std is called on files; that each lemma is cited, or named for callers by its crate's README; that what the
documents name in backticks is in the sources, and that their links lead somewhere; that scripts/README.md names each script; that
prose has the terms of the field and not the phrases that scripts/lib/phrases.py replaces.

What breaks one is mended, or listed by name in rules.txt below a line `# REASON`, with its number if the rule counts. What isn't
listed is refused, and so is what is listed and mended, or has a larger number by now: so the list has what is left to do, and
nothing joins it silently. It goes by the layout of the sources, as `rt fmt` leaves it. Tests in a module `tests` are left out.
"""
import glob
import os
import re
import sys

sys.dont_write_bytecode = True
sys.path.insert(0, os.path.join(os.path.dirname(os.path.realpath(__file__)), "../lib"))
from citations import uncited
from mentions import broken_links, known_names, unknown_names
from phrases import replaced_phrases
from sources import TOP, files_of, functions, text_of

LIST = os.path.join(os.path.dirname(os.path.realpath(__file__)), "rules.txt")
# Of each rule that counts, what is counted and the most that it allows.
LIMITS = {
    "clauses": ("clauses", 4),
    "clause": ("characters in a clause", 200),
    "parameters": ("parameters", 6),
    "body": ("lines in its body", 40),
    "file": ("lines", 300),
    "phrases": ("phrases that scripts/lib/phrases.py replaces", 0),
    "system": ("calls of the operating system on files", 0),
}
# Of the others, what is wrong.
FAULTS = {
    "foreign": "is cited outside of its crate, and isn't in proofs/lemmas",
    "uncited": "is cited by nothing, and its README doesn't name it",
    "name": "is in no source",
    "link": "leads nowhere",
    "script": "is named by no line of scripts/README.md",
}
CITED = re.compile(r"Rattle\.(\w+)\.proofs\b(?:\.([\w.+]*[\w+]))?|\b(\w+)::proofs\b(?:::([\w:]+))?")
# Calls of std on files, whose evidence says that they were made, and not that no other was.
SYSTEM = re.compile(r"\bfs::[a-z_]+\(|\bFile::(?:open|create|create_new)\(|\bOpenOptions::new\(|\bfchown\(|\.(?:seek|try_lock|set_len|set_permissions|sync_all|sync_data|(?:read|write)(?:_exact|_all)?_at)\(")
COMMENT = re.compile(r"//.*")


def crates():
    return sorted(os.path.basename(os.path.dirname(it)) for it in glob.glob("crates/*/src"))


def over(rule, path, name, count):
    """What a count breaks: one entry, or none."""
    return [((rule, path, name), count)] if count > LIMITS[rule][1] else []


def of_functions(crate):
    for path in files_of(crate):
        for it in [*functions(path)]:
            name = f"{it.owner}::{it.name}" if it.owner else it.name
            yield from over("clauses", path, name, len(it.texts))
            yield from over("clause", path, name, max(map(len, it.texts), default=0))
            yield from over("parameters", path, name, len(it.parameters()))
            yield from over("body", path, name, it.body)


def of_files():
    names = {*crates()}
    kinds = ("src/**/*.rt", "specs/**/*.antt", "proofs/**/*.antt")
    for path in sorted(it for kind in kinds for it in glob.glob(f"crates/*/{kind}", recursive=True)):
        text, own = text_of(path), path.split("/")[1]
        yield from over("file", path, "-", text.count("\n"))
        if path.endswith(".rt"):
            yield from over("system", path, "-", len(SYSTEM.findall(COMMENT.sub("", text))))
        cited = {(it[1] or it[3], (it[2] or it[4] or "").replace("::", ".")) for it in CITED.finditer(text)}
        for crate, module in sorted(cited):
            if crate in names and crate != own and not module.startswith("lemmas"):
                yield ("foreign", path, f"{crate}.{module}"), None


def unnamed_scripts():
    """The scripts that the index lacks; the model and the cases have folders of their own."""
    index = text_of("scripts/README.md")
    for path in sorted(it for it in glob.glob("scripts/*") + glob.glob("scripts/*/*") if os.path.isfile(it)):
        if not path.startswith("scripts/model/") and not path.endswith("/README.md") and f"`{os.path.basename(path)}`" not in index:
            yield path, "-"


def phrases():
    for path, count in replaced_phrases():
        yield from over("phrases", path, "-", count)


def broken():
    """All that breaks a rule: the rule, the file and the name, with the number where the rule counts. The same name twice in a file
    counts once, by its larger number."""
    found = [it for crate in crates() for it in of_functions(crate)] + [*of_files()] + [*phrases()]
    found += [(("uncited", *it), None) for it in uncited()]
    found += [(("name", *it), None) for it in unknown_names(known_names())]
    found += [(("link", *it), None) for it in broken_links()]
    found += [(("script", *it), None) for it in unnamed_scripts()]
    most = {}
    for entry, count in found:
        most[entry] = max(count, most.get(entry, 0)) if count else None
    return most


def listed():
    """What is listed: the number and the reason of each entry."""
    found, reason = {}, ""
    for line in text_of(os.path.relpath(LIST, TOP)).splitlines():
        if line.startswith("#"):
            reason = line[1:].strip()
        elif line:
            rule, path, name, *count = line.split()
            found[rule, path, name] = int(count[0]) if count else None, reason
    return found


def fault_of(entry, count, known):
    """What is wrong with an entry that breaks a rule or is listed, or the empty text."""
    rule, path, name = entry
    what = path if name == "-" else f"{path}: {name}"
    if count == "mended":
        return f"{what}: it is listed in rules.txt under {rule}, and isn't over the limit any more, or isn't there: remove its line"
    if entry not in known:
        much = f"has {count} {LIMITS[rule][0]}, and at most {LIMITS[rule][1]} are allowed" if rule in LIMITS else FAULTS[rule]
        return f"{what} {much}: mend it, or list it in rules.txt with a reason"
    if count and count > known[entry][0]:
        return f"{what} has {count} {LIMITS[rule][0]}, and {known[entry][0]} are listed in rules.txt"
    return "" if known[entry][1] else f"{what}: its line of rules.txt is below no reason"


def print_list(found, known):
    """The list as the sources have it, by reasons."""
    parts = []
    for reason in [*dict.fromkeys(reason for _count, reason in known.values()), ""]:
        lines = [" ".join(map(str, (*it, found[it] or ""))).rstrip() for it in sorted(found) if known.get(it, (None, ""))[1] == reason]
        parts += ["\n".join([f"# {reason}".rstrip(), *lines])] * (lines != [])
    print("\n\n".join(parts))


def main():
    if sys.argv[1:] not in ([], ["--list"]):
        sys.exit("rules.py: it takes no words, or --list")
    os.chdir(TOP)
    found, known = broken(), listed()
    if sys.argv[1:]:
        return print_list(found, known)
    faults = [fault_of(it, found.get(it, "mended"), known) for it in sorted({*found, *known})]
    for fault in filter(None, faults):
        print(f"rules.py: {fault}", file=sys.stderr)
    if any(faults):
        sys.exit(1)
    counts = ", ".join(f"{rule} {sum(it[0] == rule for it in known)}" for rule in (*LIMITS, *FAULTS))
    print(f"rules.py: {len(known)} exceptions, all listed ({counts})")


main()
