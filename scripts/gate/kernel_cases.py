"""Random stacks of the model's, with writes, and what they are for Linux: tables over numbered devices."""
import argparse
import math
import os
import random
import re
import subprocess
from dataclasses import dataclass, field

from command_line import features_without
from configuration import Configuration, Device, Leaf as Below, Refused
from kernel_rules import Linux, meets_twice, touches_error
from random_sessions import Sessions
from stack import SECTOR, Stack
from tables import PREFIX, SPACE, TextFault, is_mapped_name, read_stack

# Leaves are whole files, so no map is bound to one. Linux loads a line with a key's description only if its keyring has the key, and
# verifies the signature.
FEATURES = features_without(["bound-maps", "signature_key"])
# More sectors of a device aren't read.
MOST_READ = 4096
LARGEST_LEAF = 2600
# Words by which Linux itself ends at a damaged block, and what it gets for them: a word that changes no answer either.
ENDS_LINUX, ENDS_NOTHING = re.compile(rb"(?<= )(?:restart|panic)_on_corruption(?= |$)"), b"try_verify_in_tasklet"
PROGRAM = os.path.join(os.path.dirname(os.path.realpath(__file__)), "../../crates/dmstack/out/dmstack")


def arguments(description):
    """The arguments of a script that draws cases: the program, how many, from which seed, or one of them alone."""
    parser = argparse.ArgumentParser(description=description, formatter_class=argparse.RawDescriptionHelpFormatter)
    parser.add_argument("program", nargs="?", default=PROGRAM, type=os.path.realpath)
    parser.add_argument("--cases", type=int, default=400)
    parser.add_argument("--seed", type=int, default=1)
    parser.add_argument("--only", type=int)
    return parser


@dataclass
class Leaf:
    name: bytes
    content: bytes
    is_writable: bool
    file: bytes
    first: int = 0

    def binding(self):
        return b"%s=%s:%s" % (self.name, b"rw" if self.is_writable else b"ro", self.file)


@dataclass
class Case:
    """A stack text over leaves, what the model says of it, and the writes after it is loaded: their words and whether they fail.

    `fault` is the text's fault or refusal, `linux` the rules over its configuration."""
    number: int
    leaves: list
    text: bytes
    fault: object = None
    linux: object = None
    writes: list = field(default_factory=list)
    minors: dict = field(default_factory=dict)

    def put_leaves(self):
        for leaf in self.leaves:
            open(leaf.file, "wb").write(leaf.content)

    def load(self, program, *options):
        """What `load` prints of the text over these leaves, and its status."""
        self.put_leaves()
        words = [program, "load", *options, "-", *(it.binding() for it in self.leaves)]
        done = subprocess.run(words, input=self.text, capture_output=True, timeout=60)
        return done.stdout, done.returncode

    def fields(self):
        return [[it.strip(SPACE) for it in part.split(b",")] for part in self.text.split(b";") if part.strip(SPACE)]

    def is_compared(self):
        """Whether all that could be wrong is in the tables, and not in what dmsetup reads before them."""
        is_before = isinstance(self.fault, TextFault) and self.fault.line == 0
        return not is_before and all(len(it) > 4 and is_mapped_name(it[0]) and it[3] in (b"ro", b"rw") for it in self.fields())

    def entries(self):
        """The name, the flag and the lines of each device of the text, those beneath others first."""
        found = [(name, flag, [re.sub(rb"[ \t\r\n]+", b" ", it) for it in lines]) for name, _, _, flag, *lines in self.fields()]
        ordered, waiting = [], found
        while waiting:
            names = {PREFIX + name for name, _, _ in waiting}
            ready = [it for it in waiting if not names.intersection(b" ".join(it[2]).split(b" "))] or waiting
            ordered += ready
            waiting = [it for it in waiting if it not in ready]
        return ordered

    def most_of_answers(self):
        """More bytes than what is read of the devices."""
        devices = self.linux.configuration.devices.values() if self.linux and not self.fault else ()
        return 4096 + sum((min(it.sectors, MOST_READ) + 1) * (SECTOR + 32) for it in devices)

    def commands(self):
        """The commands of kernel_guest.c: the leaves are `linear` lines over the first disk."""
        lines, numbers = [], {}
        for minor, leaf in enumerate(self.leaves):
            lines += [b"device leaf%d %d %s 1" % (minor, minor, b"rw" if leaf.is_writable else b"ro"),
                      b"0 %d linear /dev/vda %d" % (len(leaf.content) // SECTOR, leaf.first)]
            numbers[leaf.name] = minor
        for minor, (name, flag, table) in enumerate(self.entries(), len(self.leaves)):
            numbers.setdefault(PREFIX + name, minor)
            lines.append(b"device %s %d %s %d" % (name, minor, flag, len(table)))
            if not self.fault:
                table = [ENDS_LINUX.sub(ENDS_NOTHING, line) for line in table]
            lines += [b" ".join(b"/dev/dm-%d" % numbers[word] if word in numbers else word for word in line.split(b" ")) for line in table]
        self.minors = numbers
        if self.linux and not self.fault:
            for name, first, count, octet, _ in self.writes:
                lines.append(b"write %d %d %d %d" % (numbers[PREFIX + name], first, count, octet))
            lines += [b"read %d %d" % (numbers[PREFIX + it.name], MOST_READ) for it in self.linux.configuration.devices.values()]
        return b"".join(line + b"\n" for line in [*lines, b"remove"])


class Cases(Sessions):
    """Draws one case."""

    def spoil_bindings(self, words):
        """Bindings are no part of what Linux reads."""

    def crowd(self):
        """Linux has no limit there."""
        return self.chain()

    def sectors(self):
        return min(super().sectors(), LARGEST_LEAF)

    def lines(self, lowers, writable):
        """Often filled up to whole blocks of 4,096 bytes, as Linux wants it of a device over large units."""
        size, lines = super().lines(lowers, writable)
        rest = -size % 8
        if rest and self.chance(0.5):
            lines.append(b"%d %d zero" % (size, rest))
            size += rest
        return size, lines

    def made_leaves(self):
        """Leaves as files of their own, whatever the model's bindings are."""
        drawn = self.session_over(self.bindings()).stack
        contents = [(leaf, drawn.images[leaf.name].stored(0, leaf.sectors)) for leaf in drawn.configuration.leaves.values()]
        self.files = {}
        words = []
        for leaf, content in contents:
            words.append(b"%s=%s:%s" % (leaf.name, b"rw" if leaf.writable else b"ro", self.new_file(content)))
        return words

    def damage_data(self):
        """Changes bytes of some sectors of the files, after a tree was made over them."""
        for name in self.random.sample([*self.files], self.random.randint(0, min(2, len(self.files)))):
            content = bytearray(self.files[name])
            for _ in range(self.pick([1, 1, 2, 5]) if content else 0):
                content[self.random.randrange(len(content))] ^= 1 << self.random.randrange(8)
            self.files[name] = bytes(content)

    def with_a_line_more(self, text):
        """The text with another line, or the same one again, after each `verity` line."""
        entries = text.split(b";")
        for at, entry in enumerate(entries):
            line = entry.split(b",")[-1]
            _, length, target, *rest = line.split(b" ") + [b""]
            if target == b"verity":
                more = b"8 zero" if self.chance(0.5) else b" ".join([length, target, *rest]).strip()
                entries[at] += b",%s %s" % (length, more)
        return b";".join(entries)

    def over_units(self, text, words):
        """The text with units of 1,024 bytes beneath the data of its `verity` line, if they have blocks of 512 bytes, or else beneath
        the tree. Most reads of it then fail."""
        session = self.session_over(words)
        self.follow(session, b"load " + text)
        before, verity, line = text.rpartition(b" verity 1 ")
        names = line.split(b" ")
        at = 0 if names[2:3] == [b"512"] else 1
        lower = session.stack.configuration.lower(names[at]) if verity else None
        if not lower or lower.sectors < 2:
            return text
        units = b"units,,,ro,0 %d crypt aes-xts-plain64 %s 0 %s 0 1 sector_size:1024;" % (lower.sectors // 2 * 2, b"11" * 32, names[at])
        names[at] = PREFIX + b"units"
        return units + before + verity + b" ".join(names)

    def chunks_over_units(self, words):
        """Chunks over units of several sectors, which they mostly divide; no text if no leaf is large enough."""
        leaf = self.random.choice([*self.session_over(words).stack.configuration.leaves.values()])
        unit, chunk, count = self.pick([2, 4, 8]), self.pick([1, 2, 3, 4, 6, 7, 8, 12]), self.pick([1, 2, 3])
        size, head, row = leaf.sectors // 8 * 8, self.pick([0, 0, 8, 16]), math.lcm(chunk, unit)
        part = size // (row * count) * row
        if not part or head >= size:
            return b""
        below = b"0 %d linear %s 0," % (head, leaf.name) if head else b""
        below += b"%d %d crypt aes-xts-plain64 %s 0 %s %d 1 sector_size:%d" % (head, size - head, b"11" * 32, leaf.name, head, unit * SECTOR)
        line = b"0 %d unstriped %d %d %d /dev/mapper/units 0" % (part, count, chunk, self.random.randrange(count))
        if self.chance(0.5):
            bases = (b"/dev/mapper/units %d" % (self.random.randint(0, (size - part) // unit) * unit) for _ in range(count))
            line = b"0 %d striped %d %d %s" % (part * count, count, chunk, b" ".join(bases))
        return b"units,,,ro,%s;chunks,,,ro,%s" % (below, line)

    def drawn_text(self, words):
        """A text of one part, or of devices and of others over them."""
        texts = []
        if self.chance(0.5):
            texts.append(self.verity_entries(words))
            if texts[0] and self.chance(0.15):
                texts[0] = self.with_a_line_more(texts[0])
            elif texts[0] and self.chance(0.3):
                texts[0] = self.over_units(texts[0], words)
            if self.chance(0.6):
                self.damage_data()
        elif self.chance(0.3):
            texts.append(self.holed_stack(self.session_over(words), True))
        elif self.chance(0.4) and words:
            texts.append(self.chunks_over_units(words))
        session = self.session_over(words)
        for text in filter(None, texts):
            self.follow(session, b"load " + text)
        stands = set(session.stack.configuration.devices)
        if stands or not any(texts):
            more = self.stack_text(session)
            names = {part.split(b",")[0].strip(SPACE) for part in more.split(b";")}
            texts = texts + [more] if not stands & names else texts
        text = b";".join(filter(None, texts))
        return self.spoiled(text) if self.chance(0.15) else text

    def drawn_writes(self, linux):
        """Writes that mean the same for Linux, in runs of one byte each: to whole blocks without a fault, or to one `error` sector."""
        session = self.session_over([])
        configuration = linux.configuration
        session.stack = stack = Stack(configuration, {})
        found = []
        for _ in range(self.pick([0, 3, 6, 9])):
            command, rest = self.request(session)
            name, *numbers = rest.split(b" ")
            device = configuration.devices.get(name)
            if command != b"write" or not device or not device.writable or linux.refuses(device) or linux.differs(device):
                continue
            if not all(it.isdigit() for it in numbers[:2]) or not re.fullmatch(rb"[0-9a-f]{2}", numbers[2]):
                continue
            first, count = int(numbers[0]), int(numbers[1])
            if count == 0 or count > 2048 or first + count > min(device.sectors, MOST_READ):
                continue
            block = linux.block(device)
            begin, end = first // block * block, -(-(first + count) // block) * block
            if touches_error(stack, device, begin, end - begin):
                if block == 1 and touches_error(stack, device, first, 1):
                    found.append((name, first, 1, int(numbers[2], 16), True))
                continue
            if not meets_twice(stack, device, begin, end - begin):
                found += self.runs_of(name, first, count)
        return found

    def runs_of(self, name, first, count):
        """A range of sectors in up to eight runs, each of a byte of its own."""
        found, end = [], first + count
        while first < end:
            part = end - first if len(found) == 7 else self.random.randint(1, end - first)
            found.append((name, first, part, self.random.randrange(256), False))
            first += part
        return found

    def case(self, number):
        words = self.made_leaves()
        text = self.drawn_text(words)
        leaves = []
        for word in words:
            name, rest = word.split(b"=", 1)
            content = self.files[rest[3:]]
            leaves.append(Leaf(name, content[:len(content) // SECTOR * SECTOR], rest.startswith(b"rw"), rest[3:]))
        return loaded_case(Case(number, [it for it in leaves if it.content], text), self.drawn_writes)


def made_image(program, options, data, *line_options):
    """The root hash of an image that the program formats of `data`, and the line that its `table` prints; the files are left in this folder."""
    for name in ("data", "tree", "parity"):
        open(name, "wb").write(data if name == "data" else b"")
    made = subprocess.run([program, "format", "--grow", "--uuid", "0" * 32, *options, "data", "tree"], capture_output=True, check=True).stdout
    root = re.search(rb"^root (\w+)$", made, re.MULTILINE)[1]
    return subprocess.run([program, "table", *line_options, "tree", root, "D", "H"], capture_output=True, check=True).stdout.strip()


def formatted_case(program, number):
    """An image that the program formats, and the line that its `table` prints."""
    data = random.Random(number).randbytes(300 * 1024)
    line = made_image(program, ("--salt", "5a" * 32), data)
    leaves = [Leaf(b"D", data, False, b"data"), Leaf(b"H", open("tree", "rb").read(), False, b"tree")]
    return loaded_case(Case(number, leaves, b"formatted,,,ro," + line))


def healed_case(program, number):
    """An image with parity that the program formats, and the line that its `table` prints. Afterwards blocks are damaged: of each round
    one data block, and in half of the images of one round a second one, or a hash block."""
    drawn = random.Random(f"healed {number}")
    size, roots = drawn.choice((512, 1024, 4096)), drawn.choice((2, 2, 3, 8, 24))
    data = bytearray(drawn.randbytes(drawn.randint(300, 520) * size))
    options = ("--data-block", str(size), "--hash-block", str(size), "--salt", "5a" * 32, "--fec", "parity", "--fec-roots", str(roots))
    line = made_image(program, options, data, "--fec", "P", "--fec-roots", str(roots))
    tree, parity = (bytearray(open(it, "rb").read()) for it in ("tree", "parity"))
    rounds, blocks = len(parity) // size // roots, len(data) // size
    lost = [drawn.randrange(at, blocks, rounds) for at in range(rounds)]
    if drawn.random() < 0.3:
        lost.append((lost[0] + rounds) % (blocks - blocks % rounds))
    for at in lost:
        data[at * size + drawn.randrange(size)] ^= drawn.randint(1, 255)
    if drawn.random() < 0.2:
        tree[-1 - drawn.randrange(size)] ^= 1
    leaves = [Leaf(name, bytes(it), False, name) for name, it in ((b"D", data), (b"H", tree), (b"P", parity))]
    return loaded_case(Case(number, leaves, b"healed,,,ro," + line))


def loaded_case(case, draw_writes=lambda _: []):
    """A case with what the model says of its text."""
    before = Configuration([Below(it.name, len(it.content) // SECTOR, it.is_writable) for it in case.leaves])
    try:
        entries = read_stack(case.text, FEATURES["targets"])
        case.linux = Linux(Configuration(before.leaves.values(), [Device(it.name, it.writable, it.lines) for it in entries]))
        case.linux = Linux(before.after(entries))
        case.writes = draw_writes(case.linux)
    except (TextFault, Refused) as fault:
        case.fault = fault
    return case


def drawn_case(seed, number):
    return Cases(f"{seed} {number}", FEATURES).case(number)
