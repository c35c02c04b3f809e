"""The service of a client of the NBD protocol: its messages in, the replies out."""

import itertools
import struct

from stack import IGNORES_ZEROS, MISMATCH, SECTOR, ZEROS, Fault
from tables import Verity, spelled

OLD_MAGIC, OPTION_MAGIC, OPTION_REPLY_MAGIC = b"NBDMAGIC", b"IHAVEOPT", 0x3E889045565A9
REQUEST_MAGIC, SIMPLE_REPLY_MAGIC, CHUNK_MAGIC = 0x25609513, 0x67446698, 0x668E33EF
FIXED_NEWSTYLE, NO_ZEROES = 1, 2
EXPORT_NAME, ABORT, LIST, INFO, GO = 1, 2, 3, 6, 7
STRUCTURED_REPLY, LIST_META_CONTEXT, SET_META_CONTEXT = 8, 9, 10
ACK, SERVER, INFORMATION, META_CONTEXT = 1, 2, 3, 4
UNSUPPORTED, INVALID, UNKNOWN, TOO_BIG = (2**31 + kind for kind in (1, 3, 6, 9))
EXPORT, NAME, DESCRIPTION, BLOCK_SIZE = range(4)
HAS_FLAGS, READ_ONLY, SEND_FLUSH, SEND_FUA, SEND_TRIM, SEND_WRITE_ZEROES = 1, 2, 4, 8, 32, 64
SEND_DF, CAN_MULTI_CONN, SEND_CACHE, SEND_FAST_ZERO = 128, 256, 1024, 2048
READ, WRITE, DISCONNECT, FLUSH, TRIM, CACHE, WRITE_ZEROES, BLOCK_STATUS = range(8)
FUA, NO_HOLE, DF, REQ_ONE, FAST_ZERO = 1, 2, 4, 8, 16
# The types of chunks, and the flag of the last one.
NONE, OFFSET_DATA, OFFSET_HOLE, STATUS, ERROR, ERROR_OFFSET, LAST = 0, 1, 2, 5, 0x8001, 0x8002, 1
CONTEXT, CONTEXT_NAME, NAMESPACE = 1, b"base:allocation", b"base:"
HOLE_OF_ZEROS = 3
MOST_EXTENTS, MOST_RUNS = 1024, 65536
EPERM, EIO, EINVAL, ENOSPC, ENOTSUP = 1, 5, 22, 28, 95
# What the chunk of an error says: of a request that isn't allowed by its number, of a fault by its name.
TEXTS = {
    EPERM: b"the export is read-only", EINVAL: b"the request is invalid", ENOSPC: b"the range ends past the export",
    ENOTSUP: b"zeros take as long to write as other bytes", b"ErrorTarget": b"the sector is on an error target",
    b"Mismatch": b"a block fails verification", b"Device": b"a backing device failed",
}
# Why a session ended, by the line on the client.
REASONS = {
    b"client 1 Lost": b"the client disconnected in a message", b"client 2 Magic": b"the client broke the protocol",
    b"client 3 Flags": b"the client broke the protocol", b"client 4 NoSuchExport": b"there is no such export",
    b"client 5 TooManyOptions": b"the client sent too many options",
}
# And without such a line: by DISC or ABORT, or between two messages.
ENDED, GONE = b"the client ended the session", b"the client disconnected"
MOST_OF_AN_OPTION, MOST_OF_A_REQUEST, MOST_OPTIONS = 65536, 32 * 1024 * 1024, 1024
# Where the pieces of a READ end, and the blocks at the ends of one that are holes where they are zeros. A BLOCK_STATUS that
# reads does so up to the end of a look, or of a part of one where one extent is asked for, and tells zeros by such blocks.
PIECE, LOOK, PART, BLOCK = 1024 * 1024, 256 * 1024, 64 * 1024, 4096
# The most sectors of a piece that is read again.
FEW = 8
# The most sectors of a run of zeros that is written, and of a piece of a write.
RUN, PUT = 2048, 128
DONE, FAULTS, BROKEN = 0, 3, 4
# So many faults are listed in a minute, each the first of its sector or data block. A service of the comparison takes less.
MOST_LISTED = 60


class Ended(Exception):
    """The end of the service, with its status, and the line on a client that broke the protocol or is lost, or else why it ended."""

    def __init__(self, status, line=b"", reason=None):
        super().__init__(status)
        self.status, self.line, self.reason = status, line, reason or REASONS[line]


class Refused(Exception):
    """A request that isn't done, with the number of its error."""

    def __init__(self, error):
        super().__init__(error)
        self.error = error


class Replies:
    """What is written to a client: each reply with what it answers; and the lines on standard error, but for the sentence."""

    def __init__(self):
        self.parts, self.warnings = [], []

    def add(self, answered, octets):
        self.parts.append((answered, octets))

    def octets(self):
        return b"".join(octets for _, octets in self.parts)

    def part_at(self, at):
        """What the byte at a place answers, and its place within that."""
        for answered, octets in self.parts:
            if at < len(octets):
                return answered, at
            at -= len(octets)
        return "what comes behind the last reply", at


def root_of(device):
    """What the line on a device says of its root hash, if its only line is a `verity` line."""
    target = device.lines[0].target
    return b", root " + spelled(target.digest) if len(device.lines) == 1 and isinstance(target, Verity) else b""


class Service:
    """Serves devices of a stack, each as a run of bytes: the client says which by its name."""

    def __init__(self, stack, devices):
        self.stack, self.devices = stack, devices
        self.replies, self.requests, self.moved, self.faults, self.listed = Replies(), 0, 0, 0, []

    def serve(self, given, is_quiet=False):
        """The replies to a whole input, and the status."""
        self.given, self.at = given, 0
        self.replies.add("the greeting", OLD_MAGIC + OPTION_MAGIC + struct.pack(">H", FIXED_NEWSTYLE | NO_ZEROES))
        try:
            self.no_zeroes, self.structured, self.selected, self.left = self.client_flags(), False, None, MOST_OPTIONS
            while not self.option():
                pass
            while True:
                self.request()
        except Ended as end:
            status, line, reason = end.status, end.line, end.reason
        if status == DONE and self.faults:
            status, line = FAULTS, b"faults %d requests %d" % (self.faults, self.requests)
        self.replies.warnings = [*(self.stack.configuration.warnings() if is_quiet else self.log(reason)), *([line] if line else [])]
        return self.replies, status

    def log(self, reason):
        """The lines on a service that isn't quiet: the warnings of its stack, one on each device, those on the first faults, and at the
        end one on the requests."""
        devices = [b"dmstack: export %s %d bytes %s%s" % (it.name, it.sectors * SECTOR, b"rw" if it.writable else b"ro", root_of(it)) for it in self.devices]
        listed = [line for _, _, line in self.listed[:MOST_LISTED]]
        left_out = self.faults - len(listed)
        more = [b"dmstack: %d more faulty requests" % left_out] if left_out > 0 else []
        counts = self.requests, self.moved, self.faults, reason
        served = b"dmstack: served %d requests of %d bytes, %d with an input/output error, 0 with NoSpace; %s" % counts
        return [*self.stack.configuration.warnings(), *devices, *listed, *more, served]

    def lose(self, sector, fault, is_alone=True):
        """A request ends with a fault at a sector, or at the piece that begins with it. Returns what the chunk of an error says of it:
        of a sector that fails verification its data block."""
        kind = b" ".join(fault.text.encode().split()[2:])
        block = self.stack.data_block(self.device, sector) if is_alone and fault.text == MISMATCH else None
        self.faults += 1
        told = kind if block is None else b"%s, data block %d" % (kind, block[1])
        if not any(sector == other or block is not None and block == met for other, met, _ in self.listed):
            self.listed.append((sector, block, b"dmstack: export %s: sector %d: %s" % (self.device.name, sector, told)))
        return TEXTS[kind.split()[0]] if block is None else b"data block %d fails verification" % block[1]

    def lose_asked(self, command, fault):
        """A request that isn't answered in pieces ends with a fault: at the first sector of a READ or CACHE that can't be read alone; of a
        write the piece is known that failed."""
        if command not in (READ, CACHE):
            return self.lose(*self.put_failed)
        return self.lose(self.lost // SECTOR, fault)

    def begin(self):
        """A message begins: where the input has ended, the client went away between two of them."""
        if self.at == len(self.given):
            raise Ended(DONE, reason=GONE)

    def take(self, count):
        """So many bytes of a message; a client that goes away in it is lost."""
        if len(self.given) - self.at < count:
            raise Ended(BROKEN, b"client 1 Lost")
        self.at += count
        return self.given[self.at - count:self.at]

    def client_flags(self):
        self.begin()
        flags, = struct.unpack(">I", self.take(4))
        if flags & ~(FIXED_NEWSTYLE | NO_ZEROES):
            raise Ended(BROKEN, b"client 3 Flags")
        return bool(flags & NO_ZEROES)

    # The handshake

    def option(self):
        """Answers an option; whether the transmission begins behind it."""
        self.begin()
        magic, option, length = struct.unpack(">8sII", self.take(16))
        if magic != OPTION_MAGIC:
            raise Ended(BROKEN, b"client 2 Magic")
        if not self.left:
            raise Ended(BROKEN, b"client 5 TooManyOptions")
        self.left -= 1
        data = self.take(length)
        if option == EXPORT_NAME:
            return self.export_name(data)
        if option == ABORT:
            self.tell(option, ACK)
            raise Ended(DONE, reason=ENDED)
        if option == SET_META_CONTEXT:
            self.selected = None
        if length > MOST_OF_AN_OPTION:
            return self.tell(option, TOO_BIG)
        if option == LIST:
            return self.list(data)
        if option in (INFO, GO):
            return self.info(option, data)
        if option == STRUCTURED_REPLY:
            self.structured |= not data
            return self.tell(option, INVALID if data else ACK)
        if option in (LIST_META_CONTEXT, SET_META_CONTEXT):
            return self.contexts(option, data)
        return self.tell(option, UNSUPPORTED)

    def tell(self, option, kind, data=b""):
        head = struct.pack(">QIII", OPTION_REPLY_MAGIC, option, kind, len(data))
        self.replies.add("option %d with reply %d" % (option, kind), head + data)
        return False

    def named(self, name):
        """The device that a client names; the first one has no name too."""
        if name == b"" and self.devices:
            return self.devices[0]
        return next((device for device in self.devices if device.name == name), None)

    def fields(self, device):
        flags = HAS_FLAGS | SEND_FLUSH | SEND_FUA | SEND_CACHE
        flags |= SEND_TRIM | SEND_WRITE_ZEROES | SEND_FAST_ZERO if device.writable else READ_ONLY
        if not device.writable and not any(leaf.writable for leaf in self.stack.configuration.leaves.values()):
            flags |= CAN_MULTI_CONN
        flags |= SEND_DF if self.structured else 0
        return struct.pack(">QH", device.sectors * SECTOR, flags)

    def begin_with(self, device):
        """The transmission begins, over that device."""
        self.device, self.size = device, device.sectors * SECTOR
        return True

    def export_name(self, name):
        device = self.named(name)
        if device is None:
            raise Ended(BROKEN, b"client 4 NoSuchExport")
        self.replies.add("EXPORT_NAME", self.fields(device) + (b"" if self.no_zeroes else bytes(124)))
        return self.begin_with(device)

    def list(self, data):
        if data:
            return self.tell(LIST, INVALID)
        for device in self.devices:
            self.tell(LIST, SERVER, struct.pack(">I", len(device.name)) + device.name)
        return self.tell(LIST, ACK)

    def info(self, option, data):
        asked = asked_for(data)
        if asked is None:
            return self.tell(option, INVALID)
        name, facts = asked
        device = self.named(name)
        if device is None:
            return self.tell(option, UNKNOWN)
        self.tell(option, INFORMATION, struct.pack(">H", EXPORT) + self.fields(device))
        if NAME in facts:
            self.tell(option, INFORMATION, struct.pack(">H", NAME) + device.name)
        if DESCRIPTION in facts:
            kind = b"verity" if all(isinstance(line.target, Verity) for line in device.lines) else b"mapped device"
            self.tell(option, INFORMATION, struct.pack(">H", DESCRIPTION) + kind + (b", writable" if device.writable else b", read-only"))
        if BLOCK_SIZE in facts:
            sizes = struct.pack(">HIII", BLOCK_SIZE, 1, 4096, MOST_OF_A_REQUEST)
            self.tell(option, INFORMATION, sizes)
        self.tell(option, ACK)
        return option == GO and self.begin_with(device)

    def contexts(self, option, data):
        """The only context, where it is named: by its name, and in a LIST by its namespace or by no query."""
        asked = queried(data) if self.structured else None
        if asked is None:
            return self.tell(option, INVALID)
        name, queries = asked
        device = self.named(name)
        if device is None:
            return self.tell(option, UNKNOWN)
        listing = option == LIST_META_CONTEXT
        if CONTEXT_NAME in queries or listing and (NAMESPACE in queries or not queries):
            self.tell(option, META_CONTEXT, struct.pack(">I", 0 if listing else CONTEXT) + CONTEXT_NAME)
            if not listing:
                self.selected = device
        return self.tell(option, ACK)

    # The transmission

    def request(self):
        self.begin()
        head = self.take(28)
        magic, flags, command, cookie, offset, length = struct.unpack(">IHHQQI", head)
        if magic != REQUEST_MAGIC:
            raise Ended(BROKEN, b"client 2 Magic")
        if command == DISCONNECT:
            raise Ended(DONE, reason=ENDED)
        data = self.take(length) if command == WRITE else b""
        self.requests += 1
        asked = "command %d at %d of %d bytes" % (command, offset, length)
        try:
            self.check(flags, command, offset, length)
            self.moved += length if command in (READ, WRITE) else 0
            if self.structured and command == READ and length and not flags & DF:
                for last, kind, told in self.pieces(offset, offset + length):
                    self.replies.add(asked, framed(cookie, last, kind, told))
                return
            error, answer, text = 0, self.done(command, flags, offset, length, data), b""
        except Refused as refused:
            error, answer, text = refused.error, b"", TEXTS[refused.error]
        except Fault as fault:
            error, answer, text = EIO, b"", self.lose_asked(command, fault)
        if self.structured and command in (READ, BLOCK_STATUS):
            octets = framed(cookie, True, *self.chunk(command, offset, answer, error, text))
        else:
            octets = struct.pack(">IIQ", SIMPLE_REPLY_MAGIC, error, cookie) + answer
        self.replies.add(asked, octets)

    def pieces(self, at, end):
        """The chunks of a READ, piece by piece; the zeros of lines with which one begins are a hole."""
        try:
            for begin, behind, octets in self.parts(at, end):
                if octets is None:
                    yield behind == end, OFFSET_HOLE, struct.pack(">QI", begin, behind - begin)
                else:
                    yield from told(begin, octets, behind == end)
        except Fault as fault:
            yield True, ERROR_OFFSET, error_told(EIO, self.lose(self.lost // SECTOR, fault)) + struct.pack(">Q", self.lost)

    def parts(self, at, end):
        """Where each piece of a READ begins and ends, and its bytes: none of the zeros of lines with which one begins.

        One that fails is read by pieces of a few sectors, and one of these sector by sector, up to the one that fails.
        """
        slow = single = at
        while at < end:
            behind = self.piece_end(at, end, 1 if at < single else FEW if at < slow else PIECE // SECTOR)
            hole = self.zeros_end(at, behind)
            if hole > at:
                yield at, hole, None
                at = hole
                continue
            try:
                octets = self.read(at, behind - at)
            except Fault:
                sectors = -(-behind // SECTOR) - at // SECTOR
                if sectors == 1:
                    self.lost = at
                    raise
                if sectors > FEW:
                    slow = behind
                else:
                    single = behind
                continue
            yield at, behind, octets
            at = behind

    def piece_end(self, at, end, most):
        """Where the next piece ends, which has at most so many sectors: where units and data blocks do."""
        first = at // SECTOR
        count = self.stack.aligned_len(self.device, first, -(-end // SECTOR) - first, most)
        return min(end, (first + count) * SECTOR)

    def zeros_end(self, at, end):
        """Where the sectors end, from that of the byte on, that the lines alone make zeros."""
        first = behind = at // SECTOR
        for known, count in self.stack.known_runs(self.device, first, -(-end // SECTOR) - first):
            if known != ZEROS:
                break
            behind += count
        return at if behind == first else min(behind * SECTOR, end)

    def chunk(self, command, offset, answer, error, text):
        """The type and the payload of the only chunk of a reply."""
        if error:
            return ERROR, error_told(error, text)
        if command == BLOCK_STATUS:
            return STATUS, struct.pack(">I", CONTEXT) + answer
        return (OFFSET_DATA, struct.pack(">Q", offset) + answer) if answer else (NONE, b"")

    def may_tell_status(self):
        return self.selected is self.device

    def check(self, flags, command, offset, length):
        """The first fault of a request, in the documents' order."""
        known = [READ, WRITE, FLUSH, TRIM, CACHE, WRITE_ZEROES] + [BLOCK_STATUS] * self.may_tell_status()
        own = {WRITE_ZEROES: NO_HOLE | FAST_ZERO, READ: DF if self.structured else 0, BLOCK_STATUS: REQ_ONE}
        if flags & ~(FUA | own.get(command, 0)) or command not in known or command == BLOCK_STATUS and not length:
            raise Refused(EINVAL)
        if command == FLUSH:
            if offset or length:
                raise Refused(EINVAL)
            return
        if command in (READ, WRITE) and length > MOST_OF_A_REQUEST:
            raise Refused(EINVAL)
        if command in (WRITE, TRIM, WRITE_ZEROES) and not self.device.writable:
            raise Refused(EPERM)
        if offset + length > self.size:
            raise Refused(ENOSPC if command in (WRITE, WRITE_ZEROES) else EINVAL)
        if command == WRITE_ZEROES and flags & FAST_ZERO and length and self.zeros_end(offset, offset + length) != offset + length:
            raise Refused(ENOTSUP)

    def done(self, command, flags, offset, length, data):
        """The bytes that a request gives."""
        if command == READ:
            parts = self.parts(offset, offset + length)
            return b"".join(bytes(behind - at) if octets is None else octets for at, behind, octets in parts)
        if command == CACHE:
            for _ in self.parts(offset, offset + min(length, MOST_OF_A_REQUEST)):
                pass
        if command == BLOCK_STATUS:
            return self.status(offset, length, 1 if flags & REQ_ONE else MOST_EXTENTS)
        if command == WRITE and data:
            self.write(offset, data, len(data))
        if command == WRITE_ZEROES and length:
            self.write(offset, bytes(length), RUN)
        return b""

    def read(self, offset, length):
        first, before = divmod(offset, SECTOR)
        sectors = self.stack.read_run(self.device, first, -(-(before + length) // SECTOR))
        return sectors[before:before + length]

    def status(self, offset, length, most):
        """Extents from the first byte on, of the lines alone, up to lines that ignore blocks of zeros; of these the bytes are read."""
        found = self.extents(offset, length, most)
        end, known = found[0]
        if known == IGNORES_ZEROS:
            return self.status_read(offset, end, most)
        ignores = [place for place, (_, known) in enumerate(found) if known == IGNORES_ZEROS]
        return extents_told(offset, [(end, known == ZEROS) for end, known in found[:ignores[0] if ignores else None]])

    def extents(self, offset, length, most):
        """Where each extent ends, and what its lines alone say of it. The extents have at most 65,536 runs together."""
        extents, at = [], offset // SECTOR
        sectors = -(-(offset % SECTOR + length) // SECTOR)
        for known, count in itertools.islice(self.stack.known_runs(self.device, at, sectors), MOST_RUNS):
            at += count
            if extents and extents[-1][1] == known:
                extents[-1] = at, known
            elif len(extents) == most:
                break
            else:
                extents.append((at, known))
        return [(min(at * SECTOR, offset + length), known) for at, known in extents]

    def status_read(self, offset, end, most):
        """The extents of bytes that are read, block by block; those that can't be read are data."""
        look = PART if most == 1 else LOOK
        end = min(end, offset - offset % look + look)
        try:
            octets = self.read(offset, end - offset)
        except Fault:
            return extents_told(offset, [(end, False)])
        extents, at = [], offset
        while at < end:
            behind = min(end, at - at % BLOCK + BLOCK)
            zeros = not any(octets[at - offset:behind - offset])
            if extents and extents[-1][1] == zeros:
                extents.pop()
            extents.append((behind, zeros))
            at = behind
        return extents_told(offset, extents[:most])

    def write(self, offset, data, most):
        """Writes whole sectors, run by run of at most so many, and each piece by piece: what is around the bytes is read first."""
        before, behind = offset % SECTOR, -(offset + len(data)) % SECTOR
        sectors = self.read_end(offset - before, before) + data + self.read_end(offset + len(data), behind)
        at, end = offset // SECTOR, (offset + len(data) - 1) // SECTOR + 1
        while at < end:
            run = at + self.stack.aligned_len(self.device, at, end - at, most)
            while at < run:
                piece = at + self.stack.aligned_len(self.device, at, run - at, PUT)
                self.write_piece(at, sectors[(at - offset // SECTOR) * SECTOR:(piece - offset // SECTOR) * SECTOR])
                at = piece

    def read_end(self, offset, length):
        """The bytes around those of a write, of one sector."""
        try:
            return self.read(offset, length)
        except Fault as fault:
            self.put_failed = offset // SECTOR, fault
            raise

    def write_piece(self, first, sectors):
        at, end = first, first + len(sectors) // SECTOR
        while at < end:
            count = self.stack.piece(self.device, at, end - at)
            try:
                self.stack.write_run(self.device, at, sectors[(at - first) * SECTOR:(at + count - first) * SECTOR])
            except Fault as fault:
                self.put_failed = first, fault, False
                raise
            at += count


def error_told(error, text):
    """The number of an error, and its text."""
    return struct.pack(">IH", error, len(text)) + text


def extents_told(offset, extents):
    """The descriptors of extents, of which each has its end, and whether it is zeros."""
    begins = [offset] + [end for end, _ in extents]
    return b"".join(struct.pack(">II", end - begin, HOLE_OF_ZEROS if zeros else 0) for begin, (end, zeros) in zip(begins, extents))


def told(at, octets, last):
    """The chunks of a piece that was read: zeros alone are a hole; of others, the whole blocks of zeros at either end."""
    begin, end = 0, len(octets)
    if any(octets):
        while not any(octets[begin:begin + BLOCK]):
            begin += BLOCK
        while end - BLOCK > begin and not any(octets[end - BLOCK:end]):
            end -= BLOCK
    else:
        begin = end
    chunks = [(OFFSET_HOLE, struct.pack(">QI", at, begin))] if begin else []
    if begin < end:
        chunks.append((OFFSET_DATA, struct.pack(">Q", at + begin) + octets[begin:end]))
    if end < len(octets):
        chunks.append((OFFSET_HOLE, struct.pack(">QI", at + end, len(octets) - end)))
    for number, (kind, payload) in enumerate(chunks, 1):
        yield last and number == len(chunks), kind, payload


def framed(cookie, last, kind, told):
    """A chunk of that type under a cookie."""
    return struct.pack(">IHHQI", CHUNK_MAGIC, LAST if last else 0, kind, cookie, len(told)) + told


def asked_for(data):
    """The name and the facts that INFO and GO ask for, or None where their length is wrong."""
    if len(data) < 6:
        return None
    size, = struct.unpack(">I", data[:4])
    if len(data) < 6 + size:
        return None
    count, = struct.unpack(">H", data[4 + size:6 + size])
    if len(data) != 6 + size + 2 * count:
        return None
    return data[4:4 + size], struct.unpack(">%dH" % count, data[6 + size:])


def queried(data):
    """The name and the queries of LIST_META_CONTEXT and SET_META_CONTEXT, or None where their length is wrong, or one has no namespace."""
    def string():
        nonlocal data
        if len(data) < 4 or len(data) < 4 + int.from_bytes(data[:4], "big"):
            raise ValueError
        size = 4 + int.from_bytes(data[:4], "big")
        found, data = data[4:size], data[size:]
        return found
    try:
        name = string()
        if len(data) < 4:
            return None
        count, data = int.from_bytes(data[:4], "big"), data[4:]
        found = []
        while len(found) < count:
            found.append(string())
    except ValueError:
        return None
    return None if data or any(query.find(b":") < 1 for query in found) else (name, found)
