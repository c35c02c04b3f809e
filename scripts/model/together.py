"""One program that holds many mutations, chosen by a number that is written into the program's file afterwards.

A function that mutations change has its old body and theirs side by side, and chooses by what `planted_bug` returns. Nothing
is optimised, so the file holds this number unchanged.
"""
import os

from kit import TOP, crates as crates_of, texts_of_edit
from planted import edit_file, read_edit

NONE = 0x5A17C0DE5A170000
CHOICE = "\nfn planted_bug() -> u64 {\n    %d\n}\n" % NONE


def edit_of(bug, crates):
    it, file = crates[bug.split("/")[0]], edit_file(bug)
    return read_edit(it, file), texts_of_edit(file, it.folder)[0]


def chosen_bodies(old, function, bodies):
    """A function's body that is the old one, or that of the bug whose number is chosen."""
    text = old[function.body:function.end]
    for number, body in bodies:
        text = b"{ if planted_bug() == %d " % (NONE + number) + body + b" else " + text + b" }"
    return text


def with_all(old, changes):
    """The text of a file with the bodies of its functions by their bugs."""
    for function in sorted({change[0].body: change[0] for change in changes}.values(), key=lambda it: -it.body):
        bodies = [(number, body) for it, number, body in changes if it.body == function.body]
        old = old[:function.body] + chosen_bodies(old, function, bodies) + old[function.end:]
    return old + CHOICE.encode()


def plant(bugs, top):
    """Plants the bugs in a copy of the sources; their numbers, of those that change the body of one function."""
    crates = {it.name: it for it in crates_of()}
    numbers, files = {}, {}
    for bug in bugs:
        edit, texts = edit_of(bug, crates)
        if edit.error or edit.function is None:
            continue
        numbers[bug] = len(numbers) + 1
        path = f"crates/{bug.split('/')[0]}/{edit.path}"
        new, grown = texts[edit.path].encode(), len(edit.text) - (edit.end - edit.start)
        body = new[edit.function.body:edit.function.end + grown]
        files.setdefault(path, []).append((edit.function, numbers[bug], body))
    for path, changes in files.items():
        with open(os.path.join(TOP, path), "rb") as file:
            old = file.read()
        with open(os.path.join(top, path), "wb") as file:
            file.write(with_all(old, changes))
    return numbers


def choose(program, number):
    """Puts the number of a bug into the program's file, in the place of any other one."""
    with open(program, "rb") as file:
        octets = file.read()
    if octets.count(NONE.to_bytes(8, "little")) == 0:
        raise ValueError("the number of the bug doesn't stand in the program")
    made = f"{program}.{number}"
    with open(made, "wb") as file:
        file.write(octets.replace(NONE.to_bytes(8, "little"), (NONE + number).to_bytes(8, "little")))
    os.chmod(made, 0o755)
    return made
