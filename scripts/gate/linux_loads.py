#!/usr/bin/env python3
"""Compares `load --linux` with the rules of kernel_rules.py, which kernel_stacks.py compares with Linux itself.

linux_loads.py [--cases N] [--seed S] [--only K] [PROGRAM]: draws stacks as kernel_stacks.py does. Of each that the model loads, PROGRAM
must name the first device with a rule, and there the first line and rule, or print what `load` prints if there is none.
"""
import os
import sys
import tempfile

sys.dont_write_bytecode = True
HERE = os.path.dirname(os.path.realpath(__file__))
sys.path[1:1] = [os.path.join(HERE, "../model"), os.path.join(HERE, "../lib")]

from checks import Checks  # noqa: E402
from configuration import LIMIT, Device  # noqa: E402
from kernel_cases import arguments, drawn_case  # noqa: E402
from kernel_rules import Linux  # noqa: E402

KINDS = ["LinuxSize", "VerityBesideOthers", "SmallBlock", "BeginBeyondDevice", "PartBlock", "DividedBlock", "UnitStart", "DividedChunk",
         "PartSize"]
FIRST_NUMBER = 51
# The rules of a whole device, whatever its lines are.
OWN = (Linux.is_too_large, Linux.splits_a_block, Linux.has_small_blocks, Linux.begins_past_its_end, Linux.mixes_verity,
       Linux.cuts_units_otherwise, Linux.splits_stripes)


def rules_of(linux, device):
    """The rules that apply to a device, each with its line, in order."""
    def alone(*lines):
        return Device(device.name, device.writable, [*lines])

    for number, line in enumerate(device.lines, 1):
        left = -line.start % linux.block(device)
        applies = {
            "LinuxSize": line.start + line.length >= LIMIT,
            "VerityBesideOthers": linux.mixes_verity(alone(device.lines[0], line)),
            "SmallBlock": linux.has_small_blocks(alone(line)),
            "BeginBeyondDevice": linux.begins_past_its_end(alone(line)),
            "PartBlock": any(it % linux.line_block(line) for it in linux.places(line)),
            "DividedBlock": left < line.length and left % linux.lower_block(line) > 0,
            "UnitStart": linux.cuts_units_otherwise(alone(line)),
            "DividedChunk": linux.splits_stripes(alone(line)),
        }
        yield from ((kind, number) for kind, it in applies.items() if it)
    if device.sectors % linux.block(device):
        yield "PartSize", 0


def refusal(linux):
    """What `load --linux` prints of a configuration to which a rule applies, or None."""
    for number, device in enumerate(linux.configuration.devices.values(), 1):
        found = next(rules_of(linux, device), None)
        if bool(found) != any(rule(linux, device) for rule in OWN):
            raise AssertionError(f"kernel_rules.py has another verdict on device {number}")
        if found:
            kind, line = found
            return b"refused %d %s device %d line %d\n" % (FIRST_NUMBER + KINDS.index(kind), kind.encode(), number, line)
    return None


def compare(words):
    checks, kinds = Checks(), {}
    for number in range(words.cases) if words.only is None else [words.only]:
        case = drawn_case(words.seed, number)
        wanted = None if case.fault else refusal(case.linux)
        plain, here = case.load(words.program), case.load(words.program, "--linux")
        good = here == ((wanted, 1) if wanted else plain)
        checks.count(f"case {number} of seed {words.seed}", good, f"{here[0].decode()!r}, and not {(wanted or plain[0]).decode()!r}\n  {case.text.decode('latin-1')}")
        kind = wanted.split(b" ")[2].decode() if wanted else "a text that isn't loaded" if case.fault else "none"
        kinds[kind] = kinds.get(kind, 0) + 1
    print("load --linux: " + ", ".join(f"{kind} {count}" for kind, count in sorted(kinds.items())) + f"; {checks.failed} of {words.cases} differ")
    return 1 if checks.failed or not checks.passed else 0


def main():
    words = arguments(__doc__).parse_args()
    with tempfile.TemporaryDirectory() as room:
        os.chdir(room)
        status = compare(words)
        os.chdir("/")
    return status


sys.exit(main())
