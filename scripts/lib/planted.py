"""Mutations, and the functions of a source file that they change."""
import glob
import json
import os
import re
from dataclasses import dataclass

from kit import TOP, texts_of_edit, tokens


# The folders of a crate's mutations: those of its main promise and of the gate, and all others.
FOLDERS = ("must-fail", "edits")


@dataclass
class Function:
    """A function of a source file: its range in bytes, and what a check calls it."""

    pattern: str
    only: str
    proofs: str
    start: int
    body: int
    end: int
    cycle: str
    # The words of its body.
    words: frozenset

    def name(self):
        return self.proofs.rpartition("/")[2]

    def proof(self):
        """What its proof is called: the functions of a cycle have one."""
        return self.cycle or self.pattern

    def has(self, goal):
        """Whether a goal of its proof is its own: those of a cycle begin with the names of its functions."""
        return not self.cycle or re.match(rf"(?:(?:invariant|decreases)-)?{re.escape(self.name())}(?:-|$)", goal)

    def folders(self):
        """Where its proof files may lie, as patterns: those of a function that calls itself, and of a cycle, begin with +."""
        above, _, name = self.proofs.rpartition("/")
        within = f"{above}/" if above else ""
        return [self.proofs, rf"{within}\+{name}", *[it + re.escape(self.cycle) for it in {"", within} if self.cycle]]


@dataclass
class Edit:
    """A mutation; `function` is None if it doesn't change the body of one function."""

    file: str
    path: str = ""
    start: int = 0
    end: int = 0
    text: bytes = b""
    function: Function = None
    refusal: str = ""
    error: str = ""
    seconds: float = 0.0
    way: str = "round"

    def label(self):
        return "/".join(self.file.split("/")[-3:])


def edit_file(bug):
    """The file of a mutation CRATE/NAME, in whichever of the crate's two folders it lies."""
    crate, name = bug.split("/")
    files = [f"{TOP}/crates/{crate}/{it}/{name}.edit" for it in FOLDERS]
    return next((it for it in files if os.path.isfile(it)), files[0])


def camel(path):
    return "".join(it[:1].upper() + it[1:] for it in path)


def skip_angles(code, at):
    """The index after the angle brackets that open at `at`."""
    depth = 0
    while at < len(code):
        word = code[at][2]
        depth += {"<": 1, ">": -1, ">>": -2}.get(word, 0)
        at += 1
        if depth <= 0:
            return at
    return at


def path_at(code, at):
    """The names of the path at `at`, whether it has arguments, the names of its first argument, and the index after it."""
    names, argument = [], []
    while at < len(code):
        word = code[at][2]
        if word in ("for", "where", "{", "+"):
            break
        if word == "<":
            if not argument:
                argument = path_at(code, at + 1)[0]
            at = skip_angles(code, at)
            continue
        if word in (",", ">"):
            break
        if re.fullmatch(r"\w+", word) and word not in ("mut", "dyn"):
            names.append(word)
        at += 1
    return names, argument, at


def owner_at(code, at):
    """What a check calls the impl at `at`, as a pattern, and whether the pattern is exact."""
    at = skip_angles(code, at + 1) if code[at + 1][2] == "<" else at + 1
    first, argument, at = path_at(code, at)
    if at >= len(code) or code[at][2] != "for":
        return (first or [""])[-1], True
    kind = path_at(code, at + 1)[0]
    name = (kind or [""])[-1] + (first or [""])[-1]
    return (rf"{name}\w*{camel(argument[-1:])}", False) if argument else (name, True)


def body_at(code, at):
    """The indices of the braces of the body of the function at `at`, or None where it has no body."""
    depth, opening = 0, None
    for j in range(at + 2, len(code)):
        word = code[j][2]
        if opening is None and depth == 0 and word in ("{", ";"):
            if word == ";":
                return None
            opening = j
        depth += (word in "([{") - (word in ")]}")
        if opening is not None and depth == 0:
            return opening, j
    return None


def functions_of(crate, path):
    """The functions of a file of the crate, by rattle's own tokens, without the text of clauses."""
    rows = tokens(f"{crate.folder}/{path}")
    code = [(int(it[1]), int(it[2]), json.loads(it[4])) for it in rows if it[3] == "Code"]
    module = [it for it in re.sub(r"\.rt$", "", path).split("/")[1:] if it not in ("lib", "main", "mod")]
    found, open_braces, pending, cycle, at = [], [], (None, True), "", 0
    while at < len(code):
        word = code[at][2]
        following = code[at + 1][2] if at + 1 < len(code) else ""
        if word == "cycle" and following == "(":
            cycle = "+" + code[at + 2][2]
        if word == "fn" and re.fullmatch(r"\w+", following):
            body = body_at(code, at)
            if body:
                owners = [it for it, _ in open_braces if it]
                is_exact = all(it for _, it in open_braces)
                names = [*module, *owners, following]
                closure = "::".join([*module, *owners, "fn", following]) + r"::[\w+:]+"
                pattern = "::".join([crate.name, f"(?:{'::'.join(names)}|{closure})"])
                only = "::".join(names if is_exact else module)
                proofs = "/".join([*module, *owners, following])
                words = frozenset(it[2] for it in code[body[0] : body[1]])
                found.append(Function(pattern, only, proofs, code[at][0], code[body[0]][0], code[body[1]][1], cycle, words))
                at = body[1]
            cycle = ""
        elif word == "impl":
            pending = owner_at(code, at)
        elif word in ("mod", "trait"):
            pending = following, True
        elif word == "{":
            open_braces.append(pending)
            pending = None, True
        elif word == "}" and open_braces:
            open_braces.pop()
        at += 1
    return found


def proofs_below(crate):
    """For each proof of the crate's functions, those of the functions that it calls, directly or not, as far as names tell."""
    paths = [os.path.relpath(it, crate.folder) for it in glob.glob(f"{crate.folder}/src/**/*.rt", recursive=True)]
    functions = [it for path in paths for it in functions_of(crate, path)]
    named, calls = {}, {}
    for it in functions:
        named.setdefault(it.name(), []).append(it)
    alone = {name: their[0].proof() for name, their in named.items() if len(their) == 1}
    for it in functions:
        calls.setdefault(it.proof(), set()).update(alone[word] for word in it.words if word in alone)
    below = {}
    for proof in calls:
        left, seen = [proof], set()
        while left:
            new = calls[left.pop()] - seen
            seen |= new
            left += new
        below[proof] = seen - {proof}
    return below


def read_edit(crate, file):
    """The edit, with the text that it puts in place of the text between two offsets."""
    edit = Edit(file)
    texts, edit.error = texts_of_edit(file, crate.folder)
    if edit.error or len(texts) != 1:
        return edit
    edit.path, text = next(iter(texts.items()))
    if not edit.path.startswith("src/") or not edit.path.endswith(".rt"):
        return edit
    new = text.encode()
    with open(f"{crate.folder}/{edit.path}", "rb") as it:
        old = it.read()
    edit.start = len(os.path.commonprefix([old, new]))
    shared = len(os.path.commonprefix([old[edit.start :][::-1], new[edit.start :][::-1]]))
    edit.end, edit.text = len(old) - shared, new[edit.start : len(new) - shared]
    for it in functions_of(crate, edit.path):
        if it.body < edit.start and edit.end < it.end:
            edit.function = it
    return edit
