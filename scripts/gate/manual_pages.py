#!/usr/bin/env python3
"""Makes the pages that `dmstack manual` prints from the manual page, man/dmstack.1, and the table of README.md, and the list of
commands with their usage from the manual page.

manual_pages.py writes both, pages.rt and commands.rt of crates/manual_pages/src; manual_pages.py --check compares them.
A page has a command's words, what it does, its options, its statuses, and the document that says more.
"""

import os
import re
import sys
import textwrap
from pathlib import Path

sys.dont_write_bytecode = True
sys.path.insert(0, os.path.join(os.path.dirname(os.path.realpath(__file__)), "../lib"))
from completion import COMMON

TOP = Path(__file__).resolve().parents[2]
PAGES = TOP / "crates/manual_pages/src/pages.rt"
COMMANDS = TOP / "crates/manual_pages/src/commands.rt"
WIDTH = 78
ON_STACKS = ("", "load", "read", "write", "session", "nbd", "scan", "copy", "cat", "store")
HEAD = """//! The texts of the pages, which scripts/gate/manual_pages.py makes from man/dmstack.1.

use crate::page::Page;

"""
HEAD_OF_COMMANDS = """//! The commands, which scripts/gate/manual_pages.py makes from man/dmstack.1.

use crate::command::Command;

"""


def plain(line):
    """A line of the manual page without its macro, fonts and escapes."""
    found = re.match(r"\.(B|I|BR|RB|IR|RI|BI|IB) (.*)$", line)
    if found:
        words = re.findall(r'"([^"]*)"|(\S+)', found[2])
        joint = " " if found[1] in "BI" else ""
        line = joint.join(quoted or word for quoted, word in words)
    line = re.sub("  +", " ", line)
    return line.replace("\\-", "-").replace("\\(aq", "'").replace("\\e", "\\")


def section_of(page, title):
    return re.search(rf"^\.SH {title}\n(.*?)(?=^\.SH |\Z)", page, re.M | re.S)[1]


def paragraphs_of(text):
    """The paragraphs of a part of the page, each one line."""
    found = [[]]
    for line in text.splitlines():
        if line == ".PP":
            found.append([])
        elif line and not re.fullmatch(r"\.(nf|fi|RS|RE)", line):
            found[-1].append(plain(line))
    return [" ".join(it) for it in found if it]


def entries_of(text):
    """The entries of a list: of each its head and what is said of it; the paragraphs after the list belong to none."""
    found = []
    for part in re.split(r"^\.TP\n", text, flags=re.M)[1:]:
        head, _, said = part.partition("\n")
        found.append((plain(head), " ".join(paragraphs_of(said.split("\n.PP")[0]))))
    return found


def entries_for(name, options, words):
    """The entries of a command's options: of several for one option, the one whose head ends with the command in brackets, else
    the one without brackets."""
    found = {}
    for head, said in options:
        option, of = head.split()[0], re.search(r" \((\w+)\)$", head)
        taken = re.search(rf"{re.escape(option)}(?![\w-])", words)
        if taken and (of and of[1] == name or not of and option not in found):
            found[option] = (head[: of.start()] if of else head, said)
    return [*found.values()]


def filled(text, indent):
    return textwrap.fill(text, WIDTH, initial_indent=indent, subsequent_indent=indent, break_on_hyphens=False, break_long_words=False)


def list_of(entries):
    return [line for head, said in entries for line in (f"  {head}", filled(said, "      "))]


def documents_of(readme):
    """The document that README.md's table of commands names for each."""
    found = {}
    for line in readme.splitlines():
        for name, document in re.findall(r"\[`(\w+)[^`]*`\]\((docs/\w+\.md)\)", line if line.startswith("|") else ""):
            found[name] = document
    return found


def pages_of(page, readme):
    commands = re.findall(r'^\.SS "([^"\n]*)"\n(.*?)(?=^\.SS |\Z)', section_of(page, "COMMANDS"), re.M | re.S)
    options, statuses = entries_of(section_of(page, "OPTIONS")), list_of(entries_of(section_of(page, "EXIT STATUS")))
    documents = documents_of(readme)
    usages = [f"  dmstack {plain(head)}" for head, _ in commands]
    about = paragraphs_of(section_of(page, "NAME"))[0]
    bindings = list_of(entries_of(section_of(page, "BINDINGS")))
    images = list_of(entries_of(section_of(page, "IMAGES")))
    common = list_of(it for it in options if it[0] in dict(COMMON))
    yield "", "dmstack COMMAND [OPTION..] WORD..", [about, "", *[textwrap.fill(it, WIDTH, subsequent_indent="      ", break_on_hyphens=False) for it in usages], "", "A BINDING gives a leaf, a device at the bottom of the stack, its name:", *bindings, "", "An option of every command:", *common, "", "Statuses:", *statuses, "", "`dmstack manual COMMAND` says more of a command."]
    for head, said in commands:
        words = plain(head)
        name = words.split()[0]
        own = entries_for(name, options, words)
        lines = [textwrap.fill(f"dmstack {words}", WIDTH, subsequent_indent="    ", break_on_hyphens=False), ""]
        lines += ["\n\n".join(filled(it, "") for it in paragraphs_of(said))]
        if own:
            lines += ["", "Options:", *list_of(own)]
        if "BINDING" in words:
            lines += ["", "Bindings:", *bindings]
        if re.search(r"\bHASH1?\b", words):
            lines += ["", "Images:", *images]
        lines += ["", "Statuses:", *statuses]
        if name in documents:
            lines += ["", f"More: {documents[name]}"]
        yield name, f"dmstack {words}", lines


def source_of(pages):
    """In two lists, since the proof of a function grows with the texts that it searches."""
    made = [static_of("STACK_PAGES", "The program's page, and those of the commands on stacks.", [it for it in pages if it[0] in ON_STACKS])]
    made.append(static_of("IMAGE_PAGES", "The pages of the commands on images, and of `manual` and `version`.", [it for it in pages if it[0] not in ON_STACKS]))
    return HEAD + "\n".join(made)


def constant_of(what, command, said):
    """A constant as rt fmt lays it out, since clauses can name one, and no part of a static list of structs."""
    name = f"{command.upper() or 'PROGRAM'}_{what}"
    text = said.replace("\\", "\\\\").replace('"', '\\"')
    head = f"const {name}: &str ="
    between = "\n    " if len(f'{head} "{text}";'.split("\n")[0]) > 100 else " "
    return name, f'{head}{between}"{text}";\n\n'


def static_of(name, what, pages):
    text, made = "", f"/// {what}\npub static {name}: [Page; {len(pages)}] = [\n"
    for command, _usage, lines in pages:
        constant, line = constant_of("PAGE", command, "\n".join(lines) + "\n")
        text += line
        made += f'    Page {{\n        name: "{command}",\n        text: {constant},\n    }},\n'
    return text + made + "];\n"


def commands_of(pages):
    """The list of the commands, in the order of the pages, without the program's own page."""
    pages = sorted((it for it in pages if it[0]), key=lambda it: it[0] not in ON_STACKS)
    text, made = HEAD_OF_COMMANDS, f"/// All commands.\npub static COMMANDS: [Command; {len(pages)}] = [\n"
    for name, usage, _lines in pages:
        constant, line = constant_of("USAGE", name, usage)
        text += line
        made += f'    Command {{\n        name: "{name}",\n        usage: {constant},\n    }},\n'
    return text + made + "];\n"


def main():
    pages = [*pages_of((TOP / "man/dmstack.1").read_text(), (TOP / "README.md").read_text())]
    made = {PAGES: source_of(pages), COMMANDS: commands_of(pages)}
    if sys.argv[1:] == ["--check"]:
        wrong = [it.name for it, text in made.items() if it.read_text() != text]
        print(f"manual_pages: {len(pages)} pages, {'and ' + ' and '.join(wrong) + ' not as they are made: run scripts/gate/manual_pages.py' if wrong else 'as the manual page has them'}")
        sys.exit(bool(wrong))
    for it, text in made.items():
        it.write_text(text)


if __name__ == "__main__":
    main()
