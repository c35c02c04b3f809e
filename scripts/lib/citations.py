"""The lemmas that nothing cites, for scripts/gate/rules.py.

A name of a file of proofs/, but for those that answer goals (Answers, Invariants, Proof), is cited where an answer, a
definition of specs/, an attribute of a source (`using(crate::proofs::M::name)`), a mutation or another cited name of
proofs/ names it: in its own file, or in a file that imports it from there. What is only imported isn't cited. Examples
(test vectors) and laws of proofs/lemmas that the crate's README names for callers need no citation.
"""
import glob
import os
import re

from sources import text_of

BETWEEN = re.compile(r"[\s(){},;.:λ`\[\]]+")
HEAD = re.compile(r"(?:(?:pub|unfoldable|abbrev|private) )*(?:record |data |ruleset )?(?:pub )?([^\s:(){},;]+)")
NO_HEAD = ("mod ", "pub mod ", "unfolding", "infix", "where", "]", "→")
ANSWERS = ("Answers.antt", "Invariants.antt", "Proof.antt", "Lib.antt", "/lemmas.antt")


def module_of(path):
    made = re.match(r"crates/(\w+)/(.*)\.antt$", path)
    return f"Rattle.{made[1]}.{made[2].replace('/', '.')}"


def is_lemma(path):
    return "/proofs/" in path and not path.endswith(ANSWERS)


class File:
    """What each block of a file names, by the block's own name, and the modules of the names that it imports."""

    def __init__(self, path):
        self.blocks, self.imports, self.modules = {}, {}, {}
        self.name, self.levels = None, [0]
        for line in text_of(path).split("\n"):
            line = re.sub(r"(^|\s)--\s.*$", "", line)
            if re.match(r"(pub )?use ", line):
                self.take_import(line)
            else:
                self.take_line(line)

    def take_import(self, line):
        made = re.match(r"(?:pub )?use ([\w.+-]+?)(?:\.\{(.*)\}| as (\w+))?$", line)
        if made and made[3]:
            self.modules[made[3]] = made[1]
        for it in made[2].split(", ") if made and made[2] else []:
            there, _, here = it.partition(" as ")
            self.imports[here or there] = made[1], there

    def take_line(self, line):
        at, indent = line.lstrip(), len(line) - len(line.lstrip())
        while at and indent < self.levels[-1]:
            self.levels.pop()
        if at.startswith("module ") and indent == self.levels[-1]:
            self.levels.append(indent + 2)
            return
        if at and indent == self.levels[-1] and not at.startswith(NO_HEAD):
            self.name = HEAD.match(at)[1] if HEAD.match(at) else self.name
        if self.name is None:
            return
        named = self.blocks.setdefault(self.name, set())
        named.update(it for it in BETWEEN.split(line) if it)
        for whole, module, name in re.findall(r"((Rattle\.[\w.+-]+|\b\w+)\.([^\s(){},;.:]+))", line):
            if module in self.modules or module.startswith("Rattle."):
                self.imports[whole] = self.modules.get(module, module), name
                named.add(whole)


def citations(files):
    """For each block of each file, the blocks that it names."""
    paths, found = {module_of(it): it for it in files}, {}
    for path, file in files.items():
        for name, tokens in file.blocks.items():
            there = [file.imports[it] for it in tokens if it in file.imports]
            here = {(path, it) for it in tokens if it in file.blocks and it not in file.imports and it != name}
            found[path, name] = here | {(paths[module], it) for module, it in there if module in paths}
    return found


def roots(cites):
    """What is cited from outside the lemmas."""
    found, by_crate = {it for it in cites if not is_lemma(it[0])}, {}
    for source in glob.glob("crates/*/src/**/*.rt", recursive=True):
        for crate, name in re.findall(r"(\w+)::proofs::([\w:-]+)", text_of(source)):
            *folders, last = name.split("::")
            home = source.split("/")[1] if crate == "crate" else crate
            found.add((f"crates/{home}/proofs/{'/'.join(folders)}.antt", last))
    for it in cites:
        by_crate.setdefault(it[0].split("/")[1], []).append(it)
    for edit in glob.glob("crates/*/must-fail/*.edit") + glob.glob("crates/*/edits/*.edit"):
        named = {*BETWEEN.split(text_of(edit))}
        found |= {it for it in by_crate.get(edit.split("/")[1], []) if it[1] in named}
    return found


def promises(cites):
    """The laws for callers that the README of their own crate names."""
    readmes = {it.split("/")[1]: text_of(it) for it in glob.glob("crates/*/README.md")}
    return {it for it in cites if "/proofs/lemmas/" in it[0] and f"`{it[1]}`" in readmes.get(it[0].split("/")[1], "")}


def reached_from(cites, names):
    """These names and all that they cite, one by way of another."""
    reached, left = {*names}, [*names]
    while left:
        more = cites.get(left.pop(), set()) - reached
        reached |= more
        left += more
    return reached


def uncited():
    """The lemmas that nothing cites, each as its file and its name."""
    paths = [it for kind in ("proofs", "specs") for it in glob.glob(f"crates/*/{kind}/**/*.antt", recursive=True)]
    cites = citations({it: File(it) for it in paths})
    reached = reached_from(cites, roots(cites) | promises(cites))
    is_worked = re.compile("Worked|Example|.*Row").match
    return sorted(it for it in cites if is_lemma(it[0]) and it not in reached and not is_worked(os.path.basename(it[0])))
