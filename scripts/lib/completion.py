#!/usr/bin/env python3
"""Prints the completion of dmstack's words for bash, made of the headings of the manual page.

completion.py [PAGE]: the headings of the page's section COMMANDS have a command's name, its options in brackets, those with a
value before its name in capitals, and then its words.
"""

import re
import sys
from pathlib import Path

TOP = Path(__file__).resolve().parents[2]
BINDINGS = "ro: rw: zero: ramp:"
# The options of every command, which the headings don't repeat.
COMMON = [("--quiet", "")]

SCRIPT = """\
# Completion of dmstack's words for bash; scripts/lib/completion.py makes it of the manual page.
_dmstack() {{
    local word=${{COMP_WORDS[COMP_CWORD]}} before=${{COMP_WORDS[COMP_CWORD - 1]}} commands options valued
    commands='{commands}'
    COMPREPLY=()
    if [ "$COMP_CWORD" = 1 ]; then
        mapfile -t COMPREPLY < <(compgen -W "$commands" -- "$word")
        return
    fi
    case ${{COMP_WORDS[1]}} in
{cases}
    *) options='' valued='' ;;
    esac
    case " $valued " in
    *" $before "*) mapfile -t COMPREPLY < <(compgen -f -- "$word"); return ;;
    esac
    case $word in
    -*) mapfile -t COMPREPLY < <(compgen -W "$options" -- "$word") ;;
    # A binding's words are cut at `=` and `:`: after `=` comes its kind, after `:` a file.
    =) mapfile -t COMPREPLY < <(compgen -W '{bindings}' -- '') ;;
    :) mapfile -t COMPREPLY < <(compgen -f -- '') ;;
    *)
        if [ "$before" = = ]; then
            mapfile -t COMPREPLY < <(compgen -W '{bindings}' -- "$word")
        else
            mapfile -t COMPREPLY < <(compgen -f -- "$word")
        fi
        ;;
    esac
}}
complete -o filenames -o nospace -F _dmstack dmstack
"""


def commands_of(page):
    """The commands of the page, each with its options and those of them that have a value."""
    section = re.search(r"^\.SH COMMANDS\n(.*?)(?=^\.SH |\Z)", page, re.M | re.S)
    if not section:
        sys.exit("completion: the page has no section COMMANDS")
    commands = {}
    for heading in re.findall(r'^\.SS "(.*)"$', section.group(1), re.M):
        heading = heading.replace("\\-", "-")
        options = re.findall(r"(--[a-z-]+)(?: ([A-Z0-9|]+))?", heading)
        commands.setdefault(heading.split()[0], [*COMMON]).extend(options)
    return commands


def case_of(name, options):
    every = " ".join(dict.fromkeys(option for option, _ in options))
    valued = " ".join(dict.fromkeys(option for option, value in options if value))
    return f"    {name}) options='{every}' valued='{valued}' ;;"


def main():
    page = Path(sys.argv[1]) if len(sys.argv) > 1 else TOP / "man/dmstack.1"
    commands = commands_of(page.read_text())
    cases = "\n".join(case_of(name, options) for name, options in commands.items())
    print(SCRIPT.format(commands=" ".join(commands), cases=cases, bindings=BINDINGS), end="")


if __name__ == "__main__":
    main()
