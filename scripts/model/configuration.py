"""Configurations: leaves and mapped devices, the rules of a load in their order, costs."""

from dataclasses import dataclass

from tables import PREFIX, Crypt, Linear, Striped, Unstriped, Verity, is_leaf_name
from verity import Tree

LIMIT = 2**54
MOST_DEVICES, MOST_LINES, MOST_DEPTH, MOST_COST = 64, 256, 8, 2**32
RULES = [
    "DuplicateName", "TooMany", "NoSuchDevice", "StandsOnItself", "ZeroLength", "Gap", "TooLarge",
    "StripesDontDivide", "BeyondDevice", "LineBeyondTree", "TreeBeyondDevice", "NeedsReadOnly",
    "LowerReadOnly", "TooDeep", "CostTooLarge", "UnitDoesntDivide", "IvOffset", "ParityDoesntCover",
]
LEAF_RULES = ["DuplicateLeaf", "TooMany", "BadName", "TooLarge"]
REMOVAL_RULES = ["NoSuchDevice", "InUse"]
# The number of a rule that isn't its place among the kinds.
NUMBERS = {"ParityDoesntCover": 61}


class Refused(Exception):
    """A refusal by its kind's name, out of the list of names whose places are the numbers."""

    def __init__(self, kind, kinds, place=""):
        super().__init__(kind)
        self.kind, self.kinds, self.place = kind, kinds, place

    def text(self):
        number = NUMBERS.get(self.kind, self.kinds.index(self.kind) + 1)
        return "refused %d %s%s" % (number, self.kind, self.place)


def broken(kind, device=0, line=0):
    return Refused(kind, RULES, " device %d line %d" % (device, line))


@dataclass
class Leaf:
    name: bytes
    sectors: int
    writable: bool


@dataclass
class Device:
    name: bytes
    writable: bool
    lines: list

    @property
    def sectors(self):
        return sum(line.length for line in self.lines)


def check_leaves(leaves):
    names = [leaf.name for leaf in leaves]
    if len(set(names)) < len(names):
        raise Refused("DuplicateLeaf", LEAF_RULES)
    if len(leaves) > 64:
        raise Refused("TooMany", LEAF_RULES)
    if not all(is_leaf_name(name) for name in names):
        raise Refused("BadName", LEAF_RULES)
    if any(leaf.sectors > LIMIT for leaf in leaves):
        raise Refused("TooLarge", LEAF_RULES)


class Configuration:
    def __init__(self, leaves, devices=()):
        self.leaves = {leaf.name: leaf for leaf in leaves}
        self.devices = {device.name: device for device in devices}

    def lower(self, argument):
        """What a device argument names: a leaf, a mapped device, or None."""
        if argument.startswith(PREFIX):
            return self.devices.get(argument[len(PREFIX):])
        return self.leaves.get(argument)

    def lowers(self, device):
        found = []
        for line in device.lines:
            found += [self.lower(argument) for argument in line.target.lower()]
        return found

    def warnings(self):
        """What is printed on standard error: that no signature is checked, if a line names the key of one."""
        targets = [line.target for device in self.devices.values() for line in device.lines]
        is_signed = any(isinstance(it, Verity) and it.signature_key is not None for it in targets)
        return [b"dmstack: warning: no signature of a root hash is checked"] if is_signed else []

    def after(self, entries):
        """The configuration to come, with each rule that it could break checked in order."""
        names = set()
        for entry in entries:
            if entry.name in names:
                raise broken("DuplicateName", entry.number)
            names.add(entry.name)
        devices = dict(self.devices)
        for entry in entries:
            devices[entry.name] = Device(entry.name, entry.writable, entry.lines)
        if len(devices) > MOST_DEVICES or any(len(entry.lines) > MOST_LINES for entry in entries):
            raise broken("TooMany")
        new = Configuration(self.leaves.values(), devices.values())
        new.check()
        return new

    def check(self):
        devices = list(enumerate(self.devices.values(), 1))
        for place, device in devices:
            for count, line in enumerate(device.lines, 1):
                if any(self.lower(argument) is None for argument in line.target.lower()):
                    raise broken("NoSuchDevice", place, count)
        for place, device in devices:
            if self.stands_on_itself(device):
                raise broken("StandsOnItself", place)
        for place, device in devices:
            start = 0
            for count, line in enumerate(device.lines, 1):
                kind = self.line_fault(device, line, start)
                if kind:
                    raise broken(kind, place, count)
                start += line.length
        for place, device in devices:
            if self.depth(device) > MOST_DEPTH:
                raise broken("TooDeep", place)
        for place, device in devices:
            if self.read_cost(device) > MOST_COST:
                raise broken("CostTooLarge", place)

    def stands_on_itself(self, device):
        seen, next_ones = set(), self.lowers(device)
        while next_ones:
            one = next_ones.pop()
            if one is device:
                return True
            if isinstance(one, Device) and one.name not in seen:
                seen.add(one.name)
                next_ones += self.lowers(one)
        return False

    def line_fault(self, device, line, start):
        """The first rule that a line breaks which should begin at `start`, or None."""
        if line.length == 0:
            return "ZeroLength"
        if line.start != start:
            return "Gap"
        if line.start + line.length > LIMIT:
            return "TooLarge"
        target = line.target
        if isinstance(target, Striped) and line.length % (len(target.stripes) * target.chunk):
            return "StripesDontDivide"
        if isinstance(target, Unstriped) and line.length % target.chunk:
            return "StripesDontDivide"
        if isinstance(target, Crypt):
            if line.length % target.unit():
                return "UnitDoesntDivide"
            if target.iv_offset % target.unit():
                return "IvOffset"
        if isinstance(target, Verity) and target.parity and not self.is_covered(target):
            return "ParityDoesntCover"
        if self.reaches_beyond(line.length, target):
            return "BeyondDevice"
        if isinstance(target, Verity):
            tree = Tree(target.data_block, target.hash_block, target.blocks, target.start)
            if line.length > tree.data_sectors():
                return "LineBeyondTree"
            if tree.end_sectors() > self.lower(target.hash_device).sectors:
                return "TreeBeyondDevice"
            if device.writable:
                return "NeedsReadOnly"
        lowers = [self.lower(argument) for argument in target.lower()]
        if device.writable and not all(lower.writable for lower in lowers):
            return "LowerReadOnly"
        return None

    def is_covered(self, target):
        """Whether parity covers the data and the whole tree, in blocks of one size."""
        levels = Tree(target.data_block, target.hash_block, target.blocks).levels
        return target.data_block == target.hash_block and target.parity.blocks >= target.blocks + sum(levels)

    def ends_beyond(self, target):
        """Whether what parity covers, or parity itself, reaches past its device."""
        parity, size = target.parity, target.data_block // 512
        rounds = -(-parity.blocks // (255 - parity.roots))
        covered = (target.start + parity.blocks - target.blocks) * size
        end = (parity.start + rounds * parity.roots) * size
        return covered > self.lower(target.hash_device).sectors or end > self.lower(parity.device).sectors

    def reaches_beyond(self, length, target):
        if isinstance(target, (Linear, Crypt)):
            return target.offset + length > self.lower(target.device).sectors
        if isinstance(target, Striped):
            share = length // len(target.stripes)
            return any(
                offset + share > self.lower(argument).sectors for argument, offset in target.stripes
            )
        if isinstance(target, Verity):
            sectors = target.blocks * target.data_block // 512
            if sectors > self.lower(target.device).sectors:
                return True
            return target.parity is not None and self.ends_beyond(target)
        if isinstance(target, Unstriped):
            last = target.offset + target.place(length - 1)
            return last >= self.lower(target.device).sectors
        return False

    def depth(self, device, heights=None):
        if isinstance(device, Leaf):
            return 0
        heights = {} if heights is None else heights
        if device.name not in heights:
            lowers = [self.depth(lower, heights) for lower in self.lowers(device)]
            heights[device.name] = 1 + max(lowers, default=0)
        return heights[device.name]

    def read_cost(self, device, known=None):
        if isinstance(device, Leaf):
            return 1
        known = {} if known is None else known
        if device.name not in known:
            known[device.name] = max(self.line_read_cost(line, known) for line in device.lines)
        return known[device.name]

    def line_read_cost(self, line, known):
        target = line.target
        lowers = [self.read_cost(self.lower(argument), known) for argument in target.lower()]
        if isinstance(target, Verity):
            levels = len(Tree(target.data_block, target.hash_block, target.blocks).levels)
            data, tree = lowers[:2]
            # For the data block and each hash block on its way: the block once more; twice the others of its round and their parity,
            # 254 blocks; and the ways to these.
            restoring = (1 + 254 * (levels + 3)) * (target.data_block // 512)
            healing = (levels + 1) * restoring * max(lowers) if target.parity else 0
            return target.data_block // 512 * data + levels * (target.hash_block // 512) * tree + healing
        if isinstance(target, Crypt):
            return target.unit() * lowers[0]
        return max(lowers, default=0)

    def write_cost(self, device, known=None):
        if isinstance(device, Leaf):
            return 1
        known = {} if known is None else known
        if device.name not in known:
            known[device.name] = max(self.line_write_cost(line, known) for line in device.lines)
        return known[device.name]

    def line_write_cost(self, line, known):
        target = line.target
        if isinstance(target, Verity):
            return 0
        lowers = [self.lower(argument) for argument in target.lower()]
        costs = [self.write_cost(lower, known) for lower in lowers]
        if isinstance(target, Crypt) and target.unit() > 1:
            return target.unit() * (self.read_cost(lowers[0]) + costs[0])
        return max(costs, default=0)

    def without(self, name):
        """The configuration after a removal."""
        device = self.devices.get(name)
        if device is None:
            raise Refused("NoSuchDevice", REMOVAL_RULES)
        if any(lower is device for other in self.devices.values() for lower in self.lowers(other)):
            raise Refused("InUse", REMOVAL_RULES)
        rest = [other for other in self.devices.values() if other is not device]
        return Configuration(self.leaves.values(), rest)
