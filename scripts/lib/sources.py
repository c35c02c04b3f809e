"""The functions of Rattle sources, read by their layout (as `rt fmt` leaves it), for scripts that compare texts with sources."""
import glob
import os
import re
from dataclasses import dataclass, field

TOP = os.path.dirname(os.path.dirname(os.path.dirname(os.path.realpath(__file__))))
CLAUSE = re.compile(r"\s*(requires|ensures)\*? (?:(\w+) )?\{")
FUNCTION = re.compile(r"( *)(pub )?(?:pub\(\w+\) )?(?:const )?fn (\w+)")
OWNER = re.compile(r"(?:pub )?(impl|trait)(?:<[^{]*?>)? (?:.* (for) )?(\w+)")


@dataclass
class Function:
    """A function: its file, its owner (`kind` is impl, trait, or for: an impl of a trait), its signature in one line, the names of
    its `ensures` clauses (an unnamed one is the empty name), the texts of all its clauses, and the number of lines of its body."""

    file: str
    name: str
    kind: str = ""
    owner: str = ""
    is_pub: bool = False
    signature: str = ""
    clauses: list = field(default_factory=list)
    texts: list = field(default_factory=list)
    body: int = 0

    def is_public(self):
        return self.is_pub or self.kind in ("trait", "for")

    def refusals(self):
        """What it answers where it refuses, as the signature has it."""
        answer = self.signature.rsplit("->", 1)[1].strip() if "->" in self.signature else ""
        if answer.startswith("Option<"):
            return "None"
        made = re.fullmatch(r"(io::)?Result<(.*)>", answer)
        if not made:
            return "none"
        return "io::Error" if made[1] else parts_of(made[2])[1]

    def parameters(self):
        """Its parameters with their types, as the signature has them; that of a method too."""
        text = re.sub(r"^.*?\bfn \w+", "", self.signature).replace("->", "  ")
        depth, begin, end = 0, text.index("("), 0
        if text.startswith("<"):
            begin = next(at for at in range(len(text)) if text[: at + 1].count("<") == text[: at + 1].count(">")) + 1
        for end in range(begin, len(text)):
            depth += (text[end] == "(") - (text[end] == ")")
            if not depth:
                break
        return [it for it in parts_of(text[begin + 1 : end]) if it]

    def may_change(self):
        return re.search(r"&('\w+ )?mut\b", self.signature.rsplit("->", 1)[0]) is not None


def parts_of(text):
    """The parts of a list of types, split at the commas outside of brackets."""
    parts, depth = [""], 0
    for letter in text:
        depth += (letter in "<([") - (letter in ">)]")
        if letter == "," and depth == 0:
            parts.append("")
        else:
            parts[-1] += letter
    return [it.strip() for it in parts]


def text_of(path):
    """The text of a file, by its path from the top."""
    with open(f"{TOP}/{path}", encoding="utf-8") as it:
        return it.read()


def libraries():
    return sorted(it.split("/")[-3] for it in glob.glob(f"{TOP}/crates/*/src/lib.rt"))


def files_of(crate):
    """The source files of a crate, as paths from the top."""
    return [os.path.relpath(it, TOP) for it in sorted(glob.glob(f"{TOP}/crates/{crate}/src/**/*.rt", recursive=True))]


def functions(path):
    """The functions of a file, but for those of its tests. One is yielded with its name; it is complete once the next one is yielded."""
    kind, owner, made, is_head, end, clause = "", "", None, False, None, ""
    for line in text_of(path).split("\n"):
        if end is not None:
            if line != end:
                made.body += 1
            else:
                made, end = None, None
            continue
        opened = OWNER.match(line)
        if opened and line.endswith("{"):
            kind, owner = opened[2] or opened[1], opened[3]
        elif line == "}":
            kind, owner = "", ""
        elif line == "mod tests {":
            return
        found = FUNCTION.match(line)
        if found and len(found[1]) in (0, 4):
            where = (kind, owner) if found[1] else ("", "")
            made = Function(path, found[3], *where, bool(found[2]))
            is_head, clause = True, ""
            yield made
        if made is None:
            continue
        begun = CLAUSE.match(line)
        if begun:
            made.clauses += [begun[2] or ""] * (begun[1] == "ensures")
        if begun or clause:
            clause = f"{clause} {line.strip()}".strip()
            is_head = False
            if clause.count("{") == clause.count("}"):
                made.texts.append(clause)
                clause = ""
            continue
        is_body = line.strip() == "{" or line.endswith(" {")
        if is_head and not line.lstrip().startswith("//"):
            made.signature += " " + line.strip().removesuffix("{").removesuffix(";")
        if is_body or line.endswith((";", "}")):
            is_head = False
            if is_body:
                end = line[: len(line) - len(line.lstrip())] + "}"
            else:
                made = None
