#!/usr/bin/env python3
"""Checks the manual page, and the completion for bash, against the command line that clap gets, and the page's own form.

manual.py [PAGE [GRAMMAR..]]: the commands of the page are the headings of its section COMMANDS. Their names and options,
and the options that its section OPTIONS explains, must be those of the grammar's source; so must those that
scripts/lib/completion.py completes, and which of them have a value. Where man or mandoc is installed, it must read the page
without a warning.
"""

import os
import re
import shutil
import subprocess
import sys
from pathlib import Path

sys.dont_write_bytecode = True
sys.path.insert(0, os.path.join(os.path.dirname(os.path.realpath(__file__)), "../lib"))
import completion

TOP = Path(__file__).resolve().parents[2]


def grammar_of(source):
    """The commands of the table, each with its options and whether they take a value; other names of an option aren't counted."""
    found = re.findall(r'^(?:pub\(crate\) )?const (\w+): OptionRow = OptionRow \{\n\s*name: "([^"]+)",[^}]*has_value: (\w+)', source, re.M)
    rows = {row: (name, valued == "true") for row, name, valued in found}
    commands = {}
    for name, options in re.findall(r'CommandRow \{\s*name: "([^"]+)",\s*options: &\[([^\]]*)\]', source):
        commands[name] = dict(rows[it] for it in re.findall(r"\w+", options))
    return commands


def completed_wrong(commands, page):
    """What the completion says otherwise than the grammar."""
    told = completion.commands_of(page)
    for name in sorted(commands.keys() | told.keys()):
        wanted = {f"--{option}": valued for option, valued in commands.get(name, {}).items()}
        given = {option: bool(value) for option, value in told.get(name, ())}
        if name not in commands or given != wanted:
            yield f"{name}: the grammar has {wanted}, the completion {given}"


def section_of(page, title):
    found = re.search(rf"^\.SH {title}\n(.*?)(?=^\.SH |\Z)", page, re.M | re.S)
    if not found:
        sys.exit(f"manual: no section {title}")
    return found.group(1)


def commands_of(page):
    """The commands of the page, each with the options in its heading."""
    commands = {}
    for heading in re.findall(r'^\.SS "(.*)"$', section_of(page, "COMMANDS"), re.M):
        heading = heading.replace("\\-", "-")
        name = heading.split()[0]
        if name in commands:
            sys.exit(f"manual: {name} is there twice")
        commands[name] = set(re.findall(r"--([a-z-]+)", heading))
    return commands


def warnings_of(page):
    """What man and mandoc say against the page."""
    told = []
    if shutil.which("man"):
        run = subprocess.run(["man", "--warnings", "-E", "UTF-8", "-l", "-Tutf8", "-Z", page], capture_output=True, text=True)
        told += run.stderr.splitlines()
    if shutil.which("mandoc"):
        run = subprocess.run(["mandoc", "-T", "lint", "-W", "warning", page], capture_output=True, text=True)
        told += run.stdout.splitlines()
    return told


def main():
    page = Path(sys.argv[1]) if len(sys.argv) > 1 else TOP / "man/dmstack.1"
    sources = sys.argv[2:] or [TOP / f"crates/command_parser/src/{it}.rt" for it in ("option_rows", "rows")]
    grammar = "".join(Path(it).read_text() for it in sources)
    text = page.read_text()
    wanted, told = grammar_of(grammar), commands_of(text)
    wrong = []
    common = {name.removeprefix("--") for name, _ in completion.COMMON}
    for name in sorted(wanted.keys() | told.keys()):
        if name not in wanted or name not in told or set(wanted[name]) != told[name] | common:
            wrong.append(f"{name}: the grammar has {wanted.get(name)}, the page {told.get(name)}")
    explained = set(re.findall(r"^\.TP\n\.BI? (?:\\-){2}(\S+)", section_of(text, "OPTIONS"), re.M))
    explained = {name.replace("\\-", "-") for name in explained}
    if explained != set().union(*wanted.values()):
        wrong.append(f"OPTIONS explains {sorted(explained)}")
    wrong += completed_wrong(wanted, text)
    wrong += warnings_of(str(page))
    for line in wrong:
        print(f"manual: {line}")
    print(f"manual: {len(told)} commands, {len(wrong)} wrong")
    sys.exit(bool(wrong))


if __name__ == "__main__":
    main()
