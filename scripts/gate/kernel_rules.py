"""Where Linux's device mapper differs from dmstack: tables that only one of them accepts, and devices that read otherwise.

A logical block is the least that Linux reads or writes of a device, in sectors here: 1 of a backing device, and of a mapped device
the largest of the devices beneath, of the units of its `crypt` lines and of the data blocks of its `verity` lines.
"""
from configuration import LIMIT, Leaf
from stack import SECTOR
from tables import ZERO_BLOCKS, Crypt, Error, Linear, Striped, Unstriped, Verity
from verity import Tree

# Faults of a text that Linux needn't have: it has other targets, ciphers, key lengths, digests, hash types and options, and more
# stripes. It takes the number of stripes for the number of the last one.
MORE_IN_LINUX = {"Target", "Cipher", "Key", "Algorithm", "Version", "Option", "StripeCount", "StripeNumber"}
LONGEST_SALT = 512
# Refusals that Linux hasn't: limits of dmstack; and Linux opens a read-only device beneath a writable one.
ONLY_HERE = {"TooMany", "TooDeep", "CostTooLarge", "LowerReadOnly"}


def own_block(target):
    """The sectors of a `crypt` line's unit or of a `verity` line's data block, 1 of another line."""
    return {Crypt: lambda it: it.unit(), Verity: lambda it: it.data_block // SECTOR}.get(type(target), lambda _: 1)(target)


class Linux:
    """What Linux does with the devices of a configuration."""

    def __init__(self, configuration):
        self.configuration = configuration

    def lowers(self, line):
        return [self.configuration.lower(it) for it in line.target.lower()]

    def block(self, device):
        """The logical block of a device."""
        return 1 if isinstance(device, Leaf) else max(map(self.line_block, device.lines))

    def lower_block(self, line):
        """The largest logical block of the devices that a line names; of `verity` lines, of the data device."""
        lowers = self.lowers(line)[:1] if isinstance(line.target, Verity) else self.lowers(line)
        return max(map(self.block, lowers), default=1)

    def line_block(self, line):
        return max(self.lower_block(line), own_block(line.target))

    def refuses(self, device):
        """Whether Linux refuses a table that dmstack accepts, or one beneath it."""
        if isinstance(device, Leaf):
            return False
        own = (self.is_too_large, self.splits_a_block, self.has_small_blocks, self.begins_past_its_end, self.mixes_verity)
        return any(rule(device) for rule in own) or any(map(self.refuses, self.configuration.lowers(device)))

    def is_too_large(self, device):
        """A device has at most 2^54 - 1 sectors: its size in bytes is a signed number of 64 bits."""
        return device.sectors >= LIMIT

    def splits_a_block(self, device):
        """What a line takes of a lower device isn't whole logical blocks, or lines that share a block have a larger one."""
        left = 0
        for line in device.lines:
            if any(it % self.line_block(line) for it in self.places(line)):
                return True
            if left and left < line.length and left % self.lower_block(line):
                return True
            left = -(line.start + line.length) % self.block(device)
        return left > 0

    def places(self, line):
        """The offsets and lengths of what a line takes of the devices beneath."""
        target = line.target
        if isinstance(target, Striped):
            return [line.length // len(target.stripes), *(offset for _, offset in target.stripes)]
        if isinstance(target, (Linear, Crypt, Unstriped)):
            return [line.length, target.offset]
        return [line.length] if isinstance(target, Verity) else []

    def has_small_blocks(self, device):
        """A `verity` line's data or hash blocks are smaller than a logical block of their device."""
        return any(size < self.block(lower) * SECTOR for line in device.lines if isinstance(line.target, Verity)
                   for size, lower in zip((line.target.data_block, line.target.hash_block), self.lowers(line)))

    def begins_past_its_end(self, device):
        """The tree of a `verity` line begins past the end of the hash device: with one data block it has no hash block, and dmstack
        doesn't look at where it begins."""
        return any(line.target.start > self.lowers(line)[1].sectors * SECTOR // line.target.hash_block
                   for line in device.lines if isinstance(line.target, Verity))

    def mixes_verity(self, device):
        """A table has a `verity` line and a line of another kind."""
        return len({isinstance(line.target, Verity) for line in device.lines}) > 1

    def may_refuse(self, device):
        """Whether a table, or one beneath it, has several `verity` lines, which newer kernels refuse."""
        if isinstance(device, Leaf):
            return False
        is_own = len(device.lines) > 1 and all(isinstance(line.target, Verity) for line in device.lines)
        return is_own or any(map(self.may_refuse, self.configuration.lowers(device)))

    def differs(self, device):
        """Whether Linux reads or writes other sectors than dmstack, or none, of a device that both accept, or of one beneath it."""
        return self.numbers_units_otherwise(device) or self.has(device, self.splits_stripes)

    def numbers_units_otherwise(self, device):
        """Whether Linux may read other bytes."""
        return self.has(device, self.cuts_units_otherwise)

    def has(self, device, rule):
        """Whether a rule applies to a device, or to one beneath it."""
        return not isinstance(device, Leaf) and (rule(device) or any(self.has(it, rule) for it in self.configuration.lowers(device)))

    def cuts_units_otherwise(self, device):
        """A `crypt` line begins inside one of its units: Linux cuts units by the device's sectors and numbers them by the line's."""
        return any(line.start % line.target.unit() for line in device.lines if isinstance(line.target, Crypt))

    def splits_stripes(self, device):
        """A chunk isn't whole logical blocks of the device beneath: Linux splits requests at chunks, and such parts fail there."""
        return any(line.target.chunk % self.lower_block(line) for line in device.lines if isinstance(line.target, (Striped, Unstriped)))

    def reads_ignored_blocks(self, device):
        """Linux reads the data of a `verity` line also where `ignore_zero_blocks` then returns zeros, so a failed read of it fails;
        dmstack doesn't read it. Whether there is such a line, over a device of which reads may fail."""
        if isinstance(device, Leaf):
            return False
        lines = (line for line in device.lines if ZERO_BLOCKS in getattr(line.target, "options", ()))
        return any(self.may_fail(self.lowers(line)[0]) for line in lines) or any(map(self.reads_ignored_blocks, self.configuration.lowers(device)))

    def heals_more(self, device):
        """Whether there is a `verity` line with parity: Linux restores up to as many lost blocks of a round as it has roots, and
        hash blocks too; dmstack one data block."""
        return self.has(device, lambda it: any(getattr(line.target, "parity", None) for line in it.lines))

    def may_fail(self, device):
        if isinstance(device, Leaf):
            return False
        return any(isinstance(line.target, (Error, Verity)) or any(map(self.may_fail, self.lowers(line))) for line in device.lines)

    def may_accept(self, refused):
        """Whether Linux may accept a configuration that dmstack refuses so."""
        if refused.kind == "BeyondDevice":
            _, device, _, line = refused.place.split()
            return self.ends_unread([*self.configuration.devices.values()][int(device) - 1].lines[int(line) - 1])
        return refused.kind in ONLY_HERE

    def ends_unread(self, line):
        """Linux looks at fewer sectors of the device beneath: of a `verity` line at as many as the line has, and not at all data
        blocks; of an `unstriped` line at as many from its offset on, and not at those between its chunks. What is past the end fails
        when it is read."""
        return isinstance(line.target, (Verity, Unstriped)) and sum(self.places(line)) <= self.lowers(line)[0].sectors


def may_read(fault, text):
    """Whether Linux may read a text that has this fault here. A salt may be longer there."""
    return fault.kind in MORE_IN_LINUX or fault.kind == "Salt" and max(map(len, text.split(b" "))) > LONGEST_SALT


def leaf_runs(stack, device, first, count):
    """The runs of backing sectors that an access of these sectors meets, None for those of an `error` line. `crypt` lines read and
    write whole units."""
    if isinstance(device, Leaf):
        yield device.name, first, count
        return
    for target, at, part in stack.runs(device, first, count):
        if isinstance(target, Error):
            yield None
        elif isinstance(target, Crypt):
            begin, end = at // target.unit() * target.unit(), -(-(at + part) // target.unit()) * target.unit()
            yield from leaf_runs(stack, stack.configuration.lower(target.device), target.offset + begin, end - begin)
        elif isinstance(target, (Linear, Striped, Unstriped)):
            for run in stack.lower_runs(target, at, part):
                yield from leaf_runs(stack, *run)


def runs_beneath(stack, target, at, count):
    """The runs of sectors of the devices beneath that an access of whole units or blocks of a line meets."""
    lower = stack.configuration.lower
    if isinstance(target, (Linear, Striped, Unstriped)):
        yield from stack.lower_runs(target, at, count)
    elif isinstance(target, Crypt):
        yield lower(target.device), target.offset + at, count
    elif isinstance(target, Verity):
        yield lower(target.device), at, count
        tree, size = Tree(target.data_block, target.hash_block, target.blocks, target.start), target.hash_block // SECTOR
        for block in range(at // own_block(target), (at + count) // own_block(target)):
            yield from ((lower(target.hash_device), place * size, size) for place, _ in tree.way(block))


def divides_a_unit(stack, device, first, count):
    """Whether a read of these sectors is divided, by lines or chunks, inside a unit of a `crypt` line or a data block of a `verity`
    line: Linux fails it."""
    if isinstance(device, Leaf):
        return False
    for target, at, part in stack.runs(device, first, count):
        if first % own_block(target) or part % own_block(target) or any(divides_a_unit(stack, *it) for it in runs_beneath(stack, target, at, part)):
            return True
        first += part
    return False


def touches_error(stack, device, first, count):
    """Whether an access of these sectors meets an `error` line."""
    return None in leaf_runs(stack, device, first, count)


def meets_twice(stack, device, first, count):
    """Whether a write of these sectors meets a backing sector twice: Linux writes the parts of a request in any order."""
    met = [(name, at) for name, begin, length in filter(None, leaf_runs(stack, device, first, count)) for at in range(begin, begin + length)]
    return len(set(met)) < len(met)
