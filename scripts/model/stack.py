"""Stacks: what sectors mean through their lines, what writes put, what the leaves are asked."""

from cipher import xts_decrypt, xts_encrypt
from configuration import Leaf
from parity import WORD, solved, summed, total
from tables import LARGE_UNITS, ZERO_BLOCKS, Crypt, Error, Linear, Striped, Unstriped, Verity, Zero
from verity import Tree, digest

SECTOR = 512
MOST_OF_A_PIECE = 128
# What the lines alone say of sectors.
UNKNOWN, ZEROS, IGNORES_ZEROS = range(3)


class Fault(Exception):
    """The fault that ends a request: its reply stands in `text`."""

    def __init__(self, text):
        super().__init__(text)
        self.text = text


ERROR_TARGET = "fault 1 ErrorTarget"
MISMATCH = "fault 2 Mismatch"
# The faults of lines, not of devices.
OF_LINES = (ERROR_TARGET, MISMATCH)


def of_device(fault):
    return None if fault.text in OF_LINES else fault


def unhealed(own, vain):
    """The fault of a block whose own read ended in one, and the read of its spare in the other: its own, unless a device failed for the
    spare alone."""
    return own if of_device(own) else of_device(vain) or own


class MemoryImage:
    """Sectors in memory: zeros, or sector k filled with the byte k modulo 256."""

    def __init__(self, sectors, ramp):
        self.sectors, self.ramp, self.changed = sectors, ramp, {}

    def read(self, first, count):
        if not self.ramp and not self.changed:
            return bytes(count * SECTOR)
        return b"".join(self.sector(at) for at in range(first, first + count))

    stored = read

    def sector(self, at):
        return self.changed.get(at) or bytes([at % 256 if self.ramp else 0]) * SECTOR

    def write(self, first, data):
        for at in range(len(data) // SECTOR):
            self.changed[first + at] = bytes(data[at * SECTOR:(at + 1) * SECTOR])


class FileImage:
    """The whole sectors of a file's bytes, as many as it had when it was opened, or a part of them.

    Where it is shorter by now, what is gone can't be read; a write makes it longer again. Nor can what is lost, as a map says."""

    def __init__(self, content, place, part=None):
        self.content, self.place = content, place
        self.begin, self.sectors = part or (0, len(content) // SECTOR)
        self.lost = ()

    def read(self, first, count):
        if any(first <= at - self.begin < first + count for at in self.lost):
            raise Fault("fault 3 Device %d" % self.place)
        return self.stored(first, count)

    def stored(self, first, count):
        """What the file has, also of sectors that are lost."""
        first += self.begin
        if (first + count) * SECTOR > len(self.content):
            raise Fault("fault 3 Device %d" % self.place)
        return bytes(self.content[first * SECTOR:(first + count) * SECTOR])

    def write(self, first, data):
        first += self.begin
        self.content.extend(bytes(max(first * SECTOR - len(self.content), 0)))
        self.content[first * SECTOR:first * SECTOR + len(data)] = data


class Moved:
    """How many sectors the leaves were asked for: exactly, or at most where that is open.

    Trees may be cached, and units of several sectors read in more than one way: their
    requests have a budget by the costs, and no number of their own."""

    def __init__(self):
        self.reads = self.writes = 0
        self.open_reads = self.open_writes = False
        self.read_budget = self.write_budget = self.shared_budget = 0

    def allows(self, reads, writes):
        if self.open_writes:
            most = self.read_budget + self.write_budget + self.shared_budget
            return reads + writes <= most and reads >= 0
        if writes != self.writes:
            return False
        return reads <= self.read_budget if self.open_reads else reads == self.reads


class Row:
    """Data blocks up to `end` that are read together, of which those before `read` were read."""

    def __init__(self, first, end):
        self.read, self.end = first, end


class Stack:
    def __init__(self, configuration, images):
        self.configuration, self.images, self.moved = configuration, images, Moved()
        self.is_known = True

    def line_at(self, device, sector):
        """The line of a sector, and the sectors left in it from there."""
        for line in device.lines:
            if sector < line.start + line.length:
                return line, line.start + line.length - sector
        raise IndexError(sector)

    def is_open(self, device):
        """Whether the sectors moved by a read through a device are left open."""
        if isinstance(device, Leaf):
            return False
        for line in device.lines:
            target = line.target
            if isinstance(target, Verity) or (isinstance(target, Crypt) and target.unit() > 1):
                return True
        return any(self.is_open(lower) for lower in self.configuration.lowers(device))

    def piece(self, device, first, count):
        """How many sectors the next piece of a request has."""
        return min(count, MOST_OF_A_PIECE, self.line_at(device, first)[1])

    def read_piece(self, device, first, count):
        self.moved.read_budget += count * self.configuration.read_cost(device)
        self.moved.open_reads |= self.is_open(device)
        return self.read_run(device, first, count)

    def write_piece(self, device, first, data):
        count = len(data) // SECTOR
        if self.is_open(device):
            self.moved.open_writes = True
        self.moved.shared_budget += count * self.configuration.write_cost(device)
        try:
            self.write_run(device, first, data)
        except Fault as fault:
            # Any of the piece's sectors may have been written where a leaf fails.
            self.is_known &= fault.text == ERROR_TARGET
            raise

    def runs(self, device, first, count):
        """The runs of sectors that stay in one line, with the sector within the line."""
        while count:
            line, rest = self.line_at(device, first)
            part = min(count, rest)
            yield line.target, first - line.start, part
            first, count = first + part, count - part

    def lower_runs(self, target, at, count):
        """Where the sectors of a linear, striped or unstriped line stand, in rising order."""
        lower = self.configuration.lower
        if isinstance(target, Linear):
            yield lower(target.device), target.offset + at, count
            return
        while count and isinstance(target, Unstriped):
            part = min(count, target.chunk - at % target.chunk)
            yield lower(target.device), target.offset + target.place(at), part
            at, count = at + part, count - part
        while count:
            chunk, inside = divmod(at, target.chunk)
            row, place = divmod(chunk, len(target.stripes))
            device, offset = target.stripes[place]
            part = min(count, target.chunk - inside)
            yield lower(device), offset + row * target.chunk + inside, part
            at, count = at + part, count - part

    def known_runs(self, lower, first, count):
        """What the lines alone say of sectors, run by run: that they are zeros, or that blocks of zeros are ignored there."""
        if isinstance(lower, Leaf):
            yield UNKNOWN, count
            return
        for target, at, part in self.runs(lower, first, count):
            if isinstance(target, (Linear, Striped, Unstriped)):
                for run in self.lower_runs(target, at, part):
                    yield from self.known_runs(*run)
            elif isinstance(target, Verity) and ZERO_BLOCKS in target.options:
                yield IGNORES_ZEROS, part
            else:
                yield ZEROS if isinstance(target, Zero) else UNKNOWN, part

    def ends_units(self, lower, sector):
        """Whether a sector is the last one of each unit and data block in which it lies, down to the leaves."""
        if isinstance(lower, Leaf):
            return True
        target, at, _ = next(self.runs(lower, sector, 1))
        if isinstance(target, (Zero, Error)):
            return True
        if isinstance(target, (Linear, Striped, Unstriped)):
            below, place, _ = next(self.lower_runs(target, at, 1))
            return self.ends_units(below, place)
        if isinstance(target, Crypt):
            size, place = target.unit(), target.offset + at
        else:
            size, place = target.data_block // SECTOR, at
        return (at + 1) % size == 0 and self.ends_units(self.configuration.lower(target.device), place)

    def data_block(self, lower, sector):
        """The data block in which a sector lies, with the first `verity` line on its way down; None if there is no such line."""
        if isinstance(lower, Leaf):
            return None
        target, at, _ = next(self.runs(lower, sector, 1))
        if isinstance(target, (Zero, Error)):
            return None
        if isinstance(target, Verity):
            return id(target), at // (target.data_block // SECTOR)
        if isinstance(target, Crypt):
            return self.data_block(self.configuration.lower(target.device), target.offset + at)
        below, place, _ = next(self.lower_runs(target, at, 1))
        return self.data_block(below, place)

    def aligned_len(self, device, first, rest, most):
        """How many sectors the next piece of a transfer has: up to the last one that ends units and data blocks, if one does."""
        if rest <= most:
            return rest
        return next((count for count in range(most, 0, -1) if self.ends_units(device, first + count - 1)), most)

    def read_run(self, lower, first, count):
        if isinstance(lower, Leaf):
            self.moved.reads += count
            try:
                return self.images[lower.name].read(first, count)
            except Fault:
                # How much is asked for at once, where a part of it is gone, is left open.
                self.moved.open_reads = True
                raise
        return b"".join(self.read_line(*run) for run in self.runs(lower, first, count))

    def read_line(self, target, at, count):
        if isinstance(target, Zero):
            return bytes(count * SECTOR)
        if isinstance(target, Error):
            raise Fault(ERROR_TARGET)
        if isinstance(target, (Linear, Striped, Unstriped)):
            runs = self.lower_runs(target, at, count)
            return b"".join(self.read_run(*run) for run in runs)
        size = target.unit() if isinstance(target, Crypt) else target.data_block // SECTOR
        reader = self.read_unit if isinstance(target, Crypt) else self.block_reader(target, at, count)
        parts = []
        for unit in range(at // size, (at + count - 1) // size + 1):
            begin, end = max(at, unit * size), min(at + count, (unit + 1) * size)
            whole = reader(target, unit)
            parts.append(whole[(begin - unit * size) * SECTOR:(end - unit * size) * SECTOR])
        return b"".join(parts)

    def unit_number(self, target, unit):
        number = (unit * target.unit() + target.iv_offset) % 2**64
        return number // target.unit() if LARGE_UNITS in target.options else number

    def read_unit(self, target, unit):
        size = target.unit()
        device = self.configuration.lower(target.device)
        data = self.read_run(device, target.offset + unit * size, size)
        return xts_decrypt(target.key, self.unit_number(target, unit), data)

    def is_clear(self, device):
        """Whether no line of a device or beneath it fails by itself."""
        if isinstance(device, Leaf):
            return True
        if any(isinstance(line.target, (Error, Verity)) for line in device.lines):
            return False
        return all(self.is_clear(lower) for lower in self.configuration.lowers(device))

    def block_reader(self, target, at, count):
        """What reads a data block of a run: several whole blocks are read together where no line beneath fails by itself."""
        size = target.data_block // SECTOR
        first, end = -(-at // size), (at + count) // size
        together = end - first > 1 and self.is_clear(self.configuration.lower(target.device))
        row = Row(first, end)
        return lambda line, block: self.read_block(line, block, row if together and first <= block < end else None)

    def read_block(self, target, block, row):
        """A verified data block: each hash block from the root down, then the block itself, or what parity restores of each."""
        tree = Tree(target.data_block, target.hash_block, target.blocks, target.start)
        hash_device = self.configuration.lower(target.hash_device)
        expected, size, after = target.digest, target.hash_block // SECTOR, b""
        for place, slot in tree.way(block):
            hashes = self.verified(target, hash_device, (place * size, size), target.blocks + place - target.start, expected)
            expected, after = hashes[32 * slot:32 * slot + 32], hashes[32 * slot + 32:]
        zeros = bytes(target.data_block)
        if ZERO_BLOCKS in target.options and expected == digest(target.salt, zeros):
            return zeros
        if row:
            self.read_row(target, block, row, after)
        size = target.data_block // SECTOR
        return self.verified(target, self.configuration.lower(target.device), (block * size, size), block, expected)

    def verified(self, target, lower, run, number, expected):
        """A block that is read alone, or what parity restores in its place; its number is that among the covered blocks."""
        try:
            return self.checked(target, self.read_run(lower, *run), expected)
        except Fault as own:
            if target.parity is None:
                raise
            return self.healed(target, number, expected, own)

    def read_row(self, target, block, row, after):
        """Reads a block together with the rest of its row, if it wasn't read with others: up to one that the last hash block on its
        way says is ignored, or as far as that says. If they can't be read, each is read alone, if there is parity."""
        if block < row.read:
            return
        row.read = row.end
        if ZERO_BLOCKS in target.options:
            ignored = digest(target.salt, bytes(target.data_block))
            others = [after[at:at + 32] for at in range(0, len(after), 32)]
            row.read = min(row.end, block + 1 + (others.index(ignored) if ignored in others else len(others)))
        size = target.data_block // SECTOR
        try:
            self.read_run(self.configuration.lower(target.device), block * size, (row.read - block) * size)
        except Fault:
            if target.parity is None:
                raise

    def checked(self, target, data, expected):
        if digest(target.salt, data) != expected:
            raise Fault(MISMATCH)
        return data

    def healed(self, target, block, expected, own):
        """The block that the others of its round and the parity give, if it has the digest: as the only lost one of the round, or else by
        erasures; a failed attempt is the block's own fault, unless a device failed in the attempt alone."""
        try:
            return self.checked(target, self.restored(target, block), expected)
        except Fault as alone:
            try:
                return self.restored_by_erasures(target, block, expected)
            except Fault as vain:
                raise unhealed(own, unhealed(alone, vain))

    def restored_by_erasures(self, target, block, expected):
        """A block by those of its round that aren't lost, if no more are lost than a codeword has bytes of parity. A lost one whose
        device failed must have its digest too."""
        lost, unread = self.losses(target, block)
        vain = unread[0][2] if unread else Fault(MISMATCH)
        if len(lost) > target.parity.roots:
            raise vain
        try:
            blocks = self.decoded(target, block, lost)
        except Fault as fault:
            raise unhealed(vain, fault)
        wanted = [(0, expected)] + [(column, known) for column, known, _ in unread]
        if any(digest(target.salt, blocks[column]) != known for column, known in wanted):
            raise vain
        return blocks[0]

    def others_of(self, target, block):
        """The other covered blocks of the round of a block, by their positions."""
        rounds = -(-target.parity.blocks // (WORD - target.parity.roots))
        return {at // rounds: at for at in range(block % rounds, target.parity.blocks, rounds) if at != block}

    def losses(self, target, block):
        """The positions of the lost blocks of a block's round, its own first, at most one more than can be restored; of those whose
        device failed, which of them it is, the digest and the fault."""
        rounds = -(-target.parity.blocks // (WORD - target.parity.roots))
        lost, unread = [block // rounds], []
        for place, other in self.others_of(target, block).items():
            if len(lost) <= target.parity.roots:
                is_lost, known, fault = self.judged(target, other)
                unread += [(len(lost), known, fault)] if fault else []
                lost += [place] if is_lost else []
        return lost, unread

    def judged(self, target, number):
        """Whether a covered block is lost as it is stored: unreadable, or without the digest that is known; if its device failed, the
        digest and the fault."""
        own = failed = known = None
        try:
            own = digest(target.salt, self.covered(target, number))
        except Fault as fault:
            if not of_device(fault):
                return True, None, None
            failed = fault
        try:
            known = self.known_digest(target, number)
        except Fault as fault:
            if of_device(fault):
                raise
        if known is None and failed:
            raise failed
        return failed is not None or known not in (None, own), known, failed

    def known_digest(self, target, number):
        """The digest of a covered block by the hash blocks on its way as they are stored; None if it isn't verified."""
        tree = Tree(target.data_block, target.hash_block, target.blocks, target.start)
        way = tree.way(number) if number < target.blocks else tree.way_to_hash_block(target.start + number - target.blocks)
        if way is None:
            return None
        expected, size = target.digest, target.hash_block // SECTOR
        for place, slot in way:
            hashes = self.checked(target, self.read_run(self.configuration.lower(target.hash_device), place * size, size), expected)
            expected = hashes[32 * slot:32 * slot + 32]
        return expected

    def decoded(self, target, block, lost):
        """The blocks at the lost positions of the round of a block, by those at the others and the parity."""
        roots = target.parity.roots
        kept = [(254 - place, self.covered(target, at)) for place, at in self.others_of(target, block).items() if place not in lost]
        stored = self.stored_parity(target, block)
        known = kept + [(roots - 1 - k, stored[k::roots]) for k in range(roots)]
        return solved([254 - place for place in lost], known, target.data_block)

    def covered(self, target, at):
        """Covered block `at`: the data blocks, then the hash device's from the tree on."""
        size = target.data_block // SECTOR
        if at < target.blocks:
            return self.read_run(self.configuration.lower(target.device), at * size, size)
        place = target.start + at - target.blocks
        return self.read_run(self.configuration.lower(target.hash_device), place * size, size)

    def restored(self, target, block):
        """The sum of a round's other blocks and of each codeword's bytes of parity: with the lost block all sum to zeros."""
        blocks = [self.covered(target, at) for at in self.others_of(target, block).values()]
        roots, stored = target.parity.roots, self.stored_parity(target, block)
        sums = bytes(total(stored[at:at + roots]) for at in range(0, len(stored), roots))
        return summed([*blocks, sums], target.data_block)

    def stored_parity(self, target, block):
        """The parity of the round of a block."""
        parity, size = target.parity, target.data_block // SECTOR
        rounds = -(-parity.blocks // (WORD - parity.roots))
        first = (parity.start + block % rounds * parity.roots) * size
        return self.read_run(self.configuration.lower(parity.device), first, size * parity.roots)

    def write_run(self, lower, first, data):
        if isinstance(lower, Leaf):
            self.moved.writes += len(data) // SECTOR
            self.images[lower.name].write(first, data)
            return
        done = 0
        for target, at, count in self.runs(lower, first, len(data) // SECTOR):
            self.write_line(target, at, data[done * SECTOR:(done + count) * SECTOR])
            done += count

    def write_line(self, target, at, data):
        if isinstance(target, Error):
            raise Fault(ERROR_TARGET)
        if isinstance(target, (Linear, Striped, Unstriped)):
            done = 0
            for lower, first, count in self.lower_runs(target, at, len(data) // SECTOR):
                self.write_run(lower, first, data[done * SECTOR:(done + count) * SECTOR])
                done += count
        if isinstance(target, Crypt):
            self.write_units(target, at, data)

    def write_units(self, target, at, data):
        """Unit by unit: one that is covered in part is read, changed and put whole."""
        size, end = target.unit(), at + len(data) // SECTOR
        device = self.configuration.lower(target.device)
        for unit in range(at // size, (end - 1) // size + 1):
            begin, stop = max(at, unit * size), min(end, (unit + 1) * size)
            part = data[(begin - at) * SECTOR:(stop - at) * SECTOR]
            if stop - begin < size:
                whole = bytearray(self.read_unit(target, unit))
                place = (begin - unit * size) * SECTOR
                whole[place:place + len(part)] = part
                part = bytes(whole)
            sealed = xts_encrypt(target.key, self.unit_number(target, unit), bytes(part))
            self.write_run(device, target.offset + unit * size, sealed)
