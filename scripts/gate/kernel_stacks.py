#!/usr/bin/env python3
"""Compares random stacks with Linux's own device mapper, in a virtual machine that boots once.

kernel_stacks.py [--cases N] [--seed S] [--only K] [--kernel FILE] [PROGRAM]: draws stacks of the model's (all targets, several
lines and levels, trees over changed blocks, texts with a rule broken or a word changed) and writes through them, and takes as the
last ones images that PROGRAM formats, one without parity and others damaged and with parity, by the lines that its `table` prints.
The machine has the newest kernel of /boot. It makes the same tables, writes the same bytes and reads each device. PROGRAM must load
what Linux loads and refuse what Linux refuses. What PROGRAM reads by the tables that Linux prints must be the same in every sector,
and fail in the same logical blocks, but for those that Linux alone restores by parity; and after the writes the backing devices
must be equal. kernel_rules.py has the tables that only one of both accepts, and those that aren't compared since Linux reads them
otherwise. What `load --linux` loads must all be compared; the device that it refuses Linux must refuse or read otherwise. `--seed S
--only K` runs case K of seed S alone. Tried with Linux 6.1.

If QEMU, a kernel or its modules are missing, that is printed, and the status is 0 (Debian: qemu-system-x86, linux-image-amd64).
"""
import os
import re
import resource
import subprocess
import sys
import tempfile
from collections import Counter

sys.dont_write_bytecode = True
HERE = os.path.dirname(os.path.realpath(__file__))
sys.path[1:1] = [os.path.join(HERE, "../model"), os.path.join(HERE, "../lib")]

from checks import Checks  # noqa: E402
from kernel_answers import Answers, Seen  # noqa: E402
from kernel_cases import Case, arguments, drawn_case, formatted_case, healed_case  # noqa: E402
from kernel_machine import Broken, Missing, needed, run_machine  # noqa: E402
from kernel_rules import divides_a_unit, may_read  # noqa: E402
from stack import SECTOR, Stack  # noqa: E402
from tables import TextFault  # noqa: E402

# So many images with parity.
HEALED = 12
# The rules of `load --linux` on what Linux loads and reads otherwise.
READ_OTHERWISE = ("UnitStart", "DividedChunk")


def named(line, names):
    """A line that Linux printed, with the names of a stack text for its devices' numbers."""
    return re.sub(rb"(?<= )\d+:(\d+)(?= |$)", lambda it: names[int(it[1])], line)


class Program:
    """A session of the program, whose replies are taken in turn."""

    def __init__(self, program, case, lines):
        words = [program, "session", *(it.binding() for it in case.leaves)]
        case.put_leaves()
        done = subprocess.run(words, input=b"".join(line + b"\n" for line in lines), capture_output=True, timeout=60)
        self.replies = iter(done.stdout.split(b"\n"))

    def reply(self):
        return next(self.replies, b"")

    def sectors(self, count):
        """So many sectors that were read at once, or one fault of all of them."""
        found = []
        while len(found) < count:
            words = self.reply().split(b" ")
            if not words[0].isdigit():
                return [b" ".join(words)] * count
            found.append(bytes.fromhex(words[-1].decode()) * (SECTOR if words[1] == b"all" else 1))
        return found


class Comparison:
    def __init__(self, words):
        self.words, self.checks = words, Checks()
        self.tables = self.alone = self.sectors = self.failed = self.healed = self.refused = self.skipped = 0
        self.verdicts_of_load = Counter()

    def unlike(self, case, what):
        """Prints a difference with what it takes to repeat it."""
        self.checks.count(f"case {case.number} of seed {self.words.seed}", False, what)
        print(f"  {case.text.decode('latin-1')}")
        for leaf in case.leaves:
            print(f"  {leaf.binding().decode('latin-1')}, {len(leaf.content) // SECTOR} sectors")
        for name, first, count, octet, _ in case.writes:
            print(f"  write {name.decode()} {first} {count} {octet:02x}")

    def case(self, case, seen):
        """Compares a case; what differs, or None."""
        compared = [] if case.fault else self.compared(case.linux, seen)
        lines = [b"load " + case.text] + [b"write %s %d %d %02x" % it[:4] for it in case.writes]
        lines.append(b"load " + self.printed(case, seen, compared))
        for name in compared:
            block = seen.made[name][1]
            lines += [b"read %s %d %d" % (name, at, block) for at in range(0, len(seen.sectors[name]), block)]
        program = Program(self.words.program, case, lines)
        loaded = program.reply()
        if loaded.startswith(b"loaded") == bool(case.fault):
            return f"the program says {loaded.decode()}, and the model {case.fault or 'loads it'}"
        if case.fault:
            return self.refusal(case, seen, loaded)
        what = self.verdicts(case.linux, seen) or self.written(case, seen, program) or self.read(case, seen, program, compared)
        return what or self.load_for_linux(case, seen, compared)

    def compared(self, linux, seen):
        """The devices whose sectors are compared."""
        return [name for name, it in linux.configuration.devices.items() if name in seen.made and not linux.refuses(it)]

    def printed(self, case, seen, compared):
        """The stack text of these devices by the tables that Linux prints."""
        names = {minor: name for name, minor in case.minors.items()}
        flags = {name: flag for name, flag, _ in case.entries()}
        return b";".join(b"%s,,,%s,%s" % (it, flags[it], b",".join(named(line, names) for line in seen.made[it][2])) for it in compared)

    def refusal(self, case, seen, loaded):
        may_accept = may_read(case.fault, case.text) if isinstance(case.fault, TextFault) else case.linux.may_accept(case.fault)
        if seen.is_loaded and not may_accept:
            return f"Linux loads it, and the program says {loaded.decode()}"
        self.refused += not seen.is_loaded
        self.skipped += seen.is_loaded
        return None

    def verdicts(self, linux, seen):
        """Linux refuses the tables that the rules say, and the devices of others have the same size and logical block."""
        for name, device in linux.configuration.devices.items():
            made, refuses = seen.made.get(name), linux.refuses(device)
            self.tables += 1
            if made and refuses:
                return f"Linux loads {name.decode()}, and should refuse it"
            if made is None and not refuses and not linux.may_refuse(device):
                return f"Linux refuses {name.decode()}"
            if made and made[:2] != (device.sectors, linux.block(device)):
                return f"{name.decode()} has {made[0]} sectors in blocks of {made[1]}"
            self.alone += made is None
        return None

    def written(self, case, seen, program):
        for (name, first, count, _, fails), is_written in zip(case.writes, seen.writes):
            reply = program.reply()
            if (reply == b"written") != is_written or fails == is_written:
                return f"a write of {count} sectors at {first} of {name.decode()}: {reply.decode()}, and Linux {'writes' if is_written else 'fails'}"
        return None

    def read(self, case, seen, program, compared):
        loaded = program.reply()
        if loaded != b"loaded %d" % len(compared):
            return f"the tables that Linux prints: {loaded.decode()}"
        for name in compared:
            block = seen.made[name][1]
            for at in range(0, len(seen.sectors[name]), block):
                what = self.unlike_block(case, seen, name, at, program.sectors(block))
                if what:
                    return what
        return self.backing(case)

    def unlike_block(self, case, seen, name, at, here):
        """What differs in a logical block of a device, or None; a block fails as a whole."""
        linux, device = case.linux, case.linux.configuration.devices[name]
        there = seen.sectors[name][at:at + len(here)]
        is_failed = here[0].startswith(b"fault ")
        if here != there and not (there[0] is None and is_failed):
            seen.otherwise.add(name)
        if linux.differs(device) and divides_a_unit(Stack(linux.configuration, {}), device, at, len(here)):
            return f"{name.decode()} at {at}: Linux reads a divided unit" if there[0] is not None else None
        if linux.numbers_units_otherwise(device):
            return None
        self.sectors += len(there)
        if there[0] is None and is_failed:
            self.failed += len(there)
        elif there[0] is None and linux.reads_ignored_blocks(device):
            self.sectors -= len(there)
        elif is_failed and linux.heals_more(device):
            self.healed += len(there)
        elif here != there:
            return f"{name.decode()} at {at}: {here[0].decode() if is_failed else 'bytes'}, and Linux {'fails' if there[0] is None else 'has others'}"
        return None

    def backing(self, case):
        """The sectors of the leaves after the writes."""
        with open("first", "rb") as disk:
            for leaf in case.leaves:
                disk.seek(leaf.first * SECTOR)
                there, here = disk.read(len(leaf.content)), open(leaf.file, "rb").read()
                if there != here:
                    at = next(at for at, pair in enumerate(zip(here, there)) if pair[0] != pair[1]) // SECTOR
                    return f"the backing device {leaf.name.decode('latin-1')} at {at} has other bytes after the writes"
        return None

    def load_for_linux(self, case, seen, compared):
        """What differs between Linux and `load --linux`, or None, if all else is equal."""
        printed, status = case.load(self.words.program, "--linux")
        linux, devices = case.linux, case.linux.configuration.devices
        if not status:
            self.verdicts_of_load["loaded"] += 1
            left = [name for name, it in devices.items() if name not in compared and not linux.may_refuse(it) or linux.differs(it)]
            return f"load --linux loads it, and Linux refuses {left[0].decode()} or reads it otherwise" if left else None
        _, _, kind, _, number, *_ = printed.decode().split()
        name = [*devices][int(number) - 1]
        is_alike = name in seen.made and name not in seen.otherwise
        self.verdicts_of_load[kind + " read alike" * is_alike] += 1
        if name in seen.made and kind not in READ_OTHERWISE:
            return f"load --linux prints {kind} of {name.decode()}, and Linux loads it"
        return None

    def end(self, version, count):
        used = sum(sum(resource.getrusage(it)[:2]) for it in (resource.RUSAGE_SELF, resource.RUSAGE_CHILDREN))
        print(f"Linux {version}: {count} stacks of seed {self.words.seed}, {self.refused} of them refused alike; {self.tables} tables in the others, {self.alone} "
              f"refused by Linux alone, by its rules; {self.sectors} sectors compared, {self.failed} fail alike, {self.healed} Linux alone restores; {self.skipped} stacks or tables not compared ({used:.0f} s of CPU)")
        print("load --linux: " + ", ".join(f"{it} {self.verdicts_of_load[it]}" for it in sorted(self.verdicts_of_load)))


def put_leaves(cases):
    """Puts all leaves on the first disk, one after the other."""
    at = 0
    with open("first", "wb") as disk:
        for case in cases:
            for leaf in case.leaves:
                leaf.first = at
                at += len(leaf.content) // SECTOR
                disk.write(leaf.content)
        disk.truncate(max(at, 2048) * SECTOR)


def compare(words):
    kernel, modules = needed(words.kernel)
    cases = [drawn_case(words.seed, number) for number in (range(words.cases) if words.only is None else [words.only])]
    cases = [it for it in cases if it.is_compared()] + [formatted_case(words.program, words.cases)]
    cases += [healed_case(words.program, words.cases + 1 + number) for number in range(HEALED)]
    put_leaves(cases)
    commands = b"".join(map(Case.commands, cases)) + b"end\n"
    answers = Answers(run_machine(kernel, modules, "first", commands, sum(map(Case.most_of_answers, cases)) + 4 * len(commands)))
    comparison = Comparison(words)
    for case in cases:
        what = comparison.case(case, Seen(case, answers))
        if what:
            comparison.unlike(case, what)
    comparison.end(os.path.basename(kernel).partition("-")[2], len(cases))
    return 1 if comparison.checks.failed or not comparison.sectors else 0


def main():
    parser = arguments(__doc__)
    parser.add_argument("--kernel")
    words = parser.parse_args()
    with tempfile.TemporaryDirectory() as room:
        os.chdir(room)
        try:
            return compare(words)
        except Missing as missing:
            print(f"{missing}: not compared with Linux")
        except Broken as broken:
            print(f"seed {words.seed}: {broken}")
            return 1
        finally:
            os.chdir("/")
    return 0


sys.exit(main())
