#!/usr/bin/env python3
"""Checks scripts/gate/calls.txt, the list of the public calls of the libraries that can refuse, and where each is shown.

    calls.py          checks the list
    calls.py --write  adds a draft of each line that is missing to the list and removes lines of calls that are gone
    calls.py --table  writes the list as a table with links to out/CALLS.md, with the calls that can't refuse

A line of the list has four parts: the call, its refusals as its signature has them, when each comes, and what is left then. The
last two are written by people and name evidence: a clause of the call (`unnamed` if it has no label), `no-mut` if the call has no
`&mut` that it could change, a test as FILE.rt:NAME, or the path of a row, a script or a case of scripts/gate/memory or
scripts/gate/failing_calls. In these cases each allocation of the program, or each call of the system, fails in turn.

Each public call that can refuse must have a line and each line a call, in the order of the sources; a line's refusals must be those
of the signature, and its clauses and tests must exist. A call returns because it is proved: only a handle in its signature lets a
function wait or stop early. HANDLES allows none, and this script looks at each signature. A call of a trait is proved at each impl.
A function of a public module is named after the module. One of a module `laws` does nothing, and has no line.
"""
import os
import re
import sys

sys.dont_write_bytecode = True
sys.path.insert(0, os.path.join(os.path.dirname(os.path.realpath(__file__)), "../lib"))
from sources import TOP, files_of, functions, libraries, text_of

LIST = "scripts/gate/calls.txt"
TABLE = "out/CALLS.md"
HEAD = "| call | its refusals | when each comes | what is left then |\n| --- | --- | --- | --- |\n"
UNNAMED, NOTHING_CHANGED = "unnamed", "no-mut"


def exported(crate):
    """The module of each name that the crate exports."""
    found = {}
    text = text_of(f"crates/{crate}/src/lib.rt")
    for path, names, name in re.findall(r"^pub use (?:crate::)?(\w+)::(?:\{([^}]*)\}|(\w+));", text, re.M):
        for it in [*names.split(","), name]:
            if it.strip():
                found[it.strip()] = path
    return found


def open_modules(crate):
    """The modules whose public functions are called by the module's name."""
    return set(re.findall(r"^pub mod (\w+);", text_of(f"crates/{crate}/src/lib.rt"), re.M)) - {"laws"}


def calls_of(crate):
    """The public calls of a crate, by their names."""
    names, modules, found = exported(crate), open_modules(crate), {}
    for path in files_of(crate):
        module = re.sub(r".*/src/|\.rt$", "", path)
        for call in functions(path):
            if call.owner in names and call.is_public() and call.kind != "for":
                found[f"{call.owner}::{call.name}"] = call
            elif not call.owner and call.is_pub and names.get(call.name) == module:
                found[call.name] = call
            elif not call.owner and call.is_pub and module in modules:
                found[f"{module}::{call.name}"] = call
    return found


def has_test(path, name):
    return re.search(rf"#\[test\]\s*fn {name}\(", text_of(path)) is not None


def fault_of_word(call, word):
    """What is wrong with one piece of evidence, or the empty text."""
    path, _, name = word.partition(":")
    if word == NOTHING_CHANGED:
        return "it has a `&mut`" if call.may_change() else ""
    if word == UNNAMED:
        return "" if "" in call.clauses else "it has no clause without a name"
    if "/" not in word:
        return "" if word in call.clauses else f"it has no clause `{word}`"
    if not os.path.exists(f"{TOP}/{path}"):
        return f"{path} isn't there"
    if path.endswith(".rt") and not (name and has_test(path, name)):
        return f"{path} has no test {name}"
    return f"{path} isn't {name}" if name and not path.endswith(".rt") else ""


def faults_of_call(call, parts):
    """What is wrong with a call and, if it can refuse, with the two parts of its line that name evidence."""
    faults = []
    if re.search(r"\b(Abort|Wait|Threads|Net|Processes)\b", call.signature):
        faults.append("by a handle it may not return")
    for part in parts if call.refusals() != "none" else []:
        faults += [*filter(None, (fault_of_word(call, it) for it in part.split()))]
        if not part.split():
            faults.append("a part names no clause and no test")
    return faults


def evidence_of(text):
    """What people wrote of each call, by its crate and name."""
    crate, found = "", {}
    for line in text.split("\n"):
        parts = line.split(" | ")
        if line.startswith("# "):
            crate = line.removeprefix("# ")
        elif len(parts) == 4:
            found[crate, parts[0]] = parts[2].strip(), parts[3].strip()
    return found


def draft(call):
    return " ".join(it or UNNAMED for it in call.clauses), "" if call.may_change() else NOTHING_CHANGED


def list_of(calls, evidence):
    """The text of the list for these calls."""
    sections = []
    for crate, found in calls.items():
        refusing = {name: it for name, it in found.items() if it.refusals() != "none"}
        lines = [" | ".join((name, it.refusals(), *evidence.get((crate, name), draft(it)))) for name, it in refusing.items()]
        sections += ["\n".join((f"# {crate}", *lines)) + "\n"] * bool(lines)
    return "\n".join(sections)


def cell(part):
    """A part of a line that names evidence, as a cell of the table."""
    found = []
    for word in part.split():
        path, _, name = word.partition(":")
        link = f"[{name or os.path.basename(path)}](../{path})"
        found.append({NOTHING_CHANGED: "no `&mut`", UNNAMED: "its clause"}.get(word, link if "/" in word else f"`{word}`"))
    return " ".join(found)


def section(crate, calls, evidence):
    """What the table says of a crate, or nothing if no call of it can refuse or has a `&mut`."""
    rows, others = [], []
    for name, call in calls.items():
        if call.refusals() != "none":
            when, left = evidence[crate, name]
            rows.append(f"| [`{name}`](../{call.file}) | `{call.refusals()}` | {cell(when)} | {cell(left)} |\n")
        elif call.may_change():
            others.append(f"`{name}`")
    text = HEAD + "".join(rows) if rows else ""
    text += "\n" * bool(rows and others) + (f"Without a refusal, on a `&mut`: {', '.join(others)}.\n" if others else "")
    return f"\n## {crate}\n\n{text}" if text else ""


def write(path, text):
    os.makedirs(os.path.dirname(f"{TOP}/{path}"), exist_ok=True)
    with open(f"{TOP}/{path}", "w", encoding="utf-8") as it:
        it.write(text)


def main():
    if sys.argv[1:] not in ([], ["--write"], ["--table"]):
        sys.exit("calls.py: it takes no arguments, --write or --table")
    calls = {it: calls_of(it) for it in libraries()}
    if sys.argv[1:] == ["--write"]:
        write(LIST, list_of(calls, evidence_of(text_of(LIST))))
    text = text_of(LIST)
    evidence, made = evidence_of(text), list_of(calls, evidence_of(text))
    passed, faults = 0, []
    if text_of("HANDLES").strip() != "Handles allowed: none.":
        faults.append("HANDLES: a function may not return")
    for crate, found in calls.items():
        for name, call in found.items():
            here = faults_of_call(call, evidence.get((crate, name), ("", "")))
            passed += not here
            faults += [f"{LIST}: {crate}: {name}: {it}" for it in here]
    stands, wanted = text.split("\n"), made.split("\n")
    faults += [f"{LIST}: there should be: {it}" for it in wanted if it not in stands]
    faults += [f"{LIST}: there shouldn't be: {it}" for it in stands if it not in wanted]
    if text != made and not faults:
        faults.append(f"{LIST}: not in the order of the sources")
    for it in faults:
        print(it)
    print(f"calls: {passed} passed, {len(faults)} failed" + (f" (scripts/gate/calls.py --write mends lines of {LIST})" if text != made else ""))
    if sys.argv[1:] == ["--table"] and not faults:
        write(TABLE, "# The public calls\n" + "".join(section(it, calls[it], evidence) for it in calls))
    return 1 if faults or not passed else 0


if __name__ == "__main__":
    sys.exit(main())
