"""The messages of the NBD protocol, field by field, what an export answers, and the service that an exchange runs on."""
import os
import re
import struct
import subprocess

from checks import Checks
from sentences import without_sentence

MAGIC, OPTION_MAGIC, REPLY_MAGIC = b"NBDMAGIC", b"IHAVEOPT", 0x3E889045565A9
REQUEST, SIMPLE_REPLY, CHUNK = 0x25609513, 0x67446698, 0x668E33EF
EXPORT_NAME, ABORT, LIST, STARTTLS, INFO, GO, STRUCTURED, LIST_META, SET_META, EXTENDED = 1, 2, 3, 5, 6, 7, 8, 9, 10, 11
ACK, SERVER, REP_INFO, REP_META = 1, 2, 3, 4
UNSUPPORTED, INVALID, UNKNOWN, TOO_BIG = (2**31 + n for n in (1, 3, 6, 9))
READ, WRITE, DISC, FLUSH, TRIM, CACHE, ZEROES, STATUS = 0, 1, 2, 3, 4, 5, 6, 7
NONE, OFFSET_DATA, OFFSET_HOLE, BLOCK_STATUS, ERROR, ERROR_OFFSET = 0, 1, 2, 5, 0x8001, 0x8002
HOLE_AND_ZERO = 3
EPERM, EIO, ENOMEM, EINVAL, ENOSPC, ENOTSUP = 1, 5, 12, 22, 28, 95
MOST = 32 << 20
MOST_OPTIONS = 1024
TEXTS = {
    EPERM: b"the export is read-only", ENOMEM: b"out of memory", EINVAL: b"the request is invalid", ENOSPC: b"the range ends past the export",
    ENOTSUP: b"zeros take as long to write as other bytes", b"ErrorTarget": b"the sector is on an error target",
    b"Mismatch": b"a block fails verification", b"Device": b"a backing device failed",
}
# the sectors in bytes that a piece of a READ touches at most that is answered piece by piece; the blocks of zeros at the ends of a
# piece that are holes; where what a BLOCK_STATUS reads ends, and where if it is of one extent; a piece that is read again
PIECE, BLOCK, LOOK, PART, FEW = 1 << 20, 4096, 256 << 10, 64 << 10, 8 << 9
GREETING = MAGIC + OPTION_MAGIC + struct.pack(">H", 3)


def flags(bits):
    return struct.pack(">I", bits)


def option(number, data=b""):
    return OPTION_MAGIC + struct.pack(">II", number, len(data)) + data


def option_reply(number, kind, data=b""):
    return struct.pack(">QIII", REPLY_MAGIC, number, kind, len(data)) + data


def asks(name, *facts):
    return struct.pack(">I", len(name)) + name + struct.pack(f">H{len(facts)}H", len(facts), *facts)


def request(kind, offset=0, length=0, cookie=0x1122334455667788, bits=0, data=b""):
    return struct.pack(">IHHQQI", REQUEST, bits, kind, cookie, offset, length) + data


def reply(error=0, data=b"", cookie=0x1122334455667788):
    return struct.pack(">IIQ", SIMPLE_REPLY, error, cookie) + data


def chunk(kind, data=b"", cookie=0x1122334455667788, done=1):
    return struct.pack(">IHHQI", CHUNK, done, kind, cookie, len(data)) + data


def error_text(error, kind=b"ErrorTarget"):
    """What the chunk of an error says to humans: of EIO by the fault's kind, of others by their number."""
    return TEXTS[kind if error == EIO else error]


def failed(error, cookie=0x1122334455667788, kind=b"ErrorTarget"):
    """The chunk of a request that fails, with its text."""
    text = error_text(error, kind)
    return chunk(ERROR, struct.pack(">IH", error, len(text)) + text, cookie)


def failed_at(error, at, cookie=0x1122334455667788, kind=b"ErrorTarget"):
    """The chunk of a READ in parts that fails at a byte."""
    text = error_text(error, kind)
    return chunk(ERROR_OFFSET, struct.pack(">IH", error, len(text)) + text + struct.pack(">Q", at), cookie)


def queries(name, *wanted):
    asked = b"".join(struct.pack(">I", len(one)) + one for one in wanted)
    return struct.pack(">I", len(name)) + name + struct.pack(">I", len(wanted)) + asked


def context(number, identity):
    return option_reply(number, REP_META, struct.pack(">I", identity) + b"base:allocation")


def go_on(extents, count, zeros):
    """Some more bytes, of the last extent if they are like it."""
    if extents and extents[-1][1] == zeros:
        extents[-1][0] += count
    else:
        extents.append([count, zeros])


class Export:
    """A device of a stack, as bytes: those that can't be read are None."""

    def __init__(self, name, content, writable=False, lost=(), zeros=(), ignoring=(), shared=True):
        self.name, self.content, self.writable, self.lost = name, bytearray(content), writable, lost
        # whether no binding of the service may write
        self.shared = shared
        # the sectors of `zero` lines, and of `verity` lines that ignore blocks of zeros
        self.zeros, self.ignoring = zeros, ignoring

    def bits(self, structured=False):
        own = SEND_TRIM | SEND_WRITE_ZEROES | SEND_FAST_ZERO if self.writable else READ_ONLY | (CAN_MULTI_CONN if self.shared else 0)
        return FLAGS | own | (SEND_DF if structured else 0)

    def told(self, number, sizes=False, structured=False, named=False, described=False):
        out = option_reply(number, REP_INFO, struct.pack(">HQH", 0, len(self.content), self.bits(structured)))
        if named:
            out += option_reply(number, REP_INFO, struct.pack(">H", 1) + self.name.encode())
        if described:
            text = b"mapped device, writable" if self.writable else b"mapped device, read-only"
            out += option_reply(number, REP_INFO, struct.pack(">H", 2) + text)
        if sizes:
            out += option_reply(number, REP_INFO, struct.pack(">HIII", 3, 1, 4096, MOST))
        return out + option_reply(number, ACK)

    def fails(self, offset, length):
        first, last = offset // 512, (offset + length + 511) // 512
        return length > 0 and any(first < high and low < last for low, high in self.lost)

    def read(self, offset, length):
        if length > MOST or offset + length > len(self.content):
            return reply(EINVAL)
        if self.fails(offset, length):
            return reply(EIO)
        return reply(data=bytes(self.content[offset : offset + length]))

    def chunks(self, offset, length, cookie=0x1122334455667788, df=False, again=False):
        """The same in chunks, piece by piece unless one chunk is asked for; in smaller pieces if the first is read again."""
        if length > MOST or offset + length > len(self.content):
            return failed(EINVAL, cookie)
        if not length:
            return chunk(NONE, cookie=cookie)
        if not df:
            return b"".join(self.pieces(offset, length, cookie, again))
        if self.fails(offset, length):
            return failed(EIO, cookie)
        return self.data(offset, offset + length, cookie)

    def data(self, at, end, cookie, done=1):
        return chunk(OFFSET_DATA, struct.pack(">Q", at) + self.content[at:end], cookie, done)

    def is_zeros(self, sector):
        return any(low <= sector < high for low, high in self.zeros)

    def is_ignoring(self, sector):
        return any(low <= sector < high for low, high in self.ignoring)

    def shown(self, at, stop, cookie, last):
        """A piece that was read: a hole where it is zeros, and where whole blocks at its beginning or its end are."""
        piece = bytes(self.content[at:stop])
        begin = len(piece) - len(piece.lstrip(b"\0"))
        behind = len(piece) - len(piece.rstrip(b"\0"))
        if begin < len(piece):
            begin, behind = begin - begin % BLOCK, behind - behind % BLOCK
        else:
            behind = 0
        cuts = [(OFFSET_HOLE, at, at + begin), (OFFSET_DATA, at + begin, stop - behind), (OFFSET_HOLE, stop - behind, stop)]
        cuts = [cut for cut in cuts if cut[1] < cut[2]]
        for kind, low, high in cuts:
            done = int(last and high == stop)
            yield self.data(low, high, cookie, done) if kind == OFFSET_DATA else chunk(kind, struct.pack(">QI", low, high - low), cookie, done)

    def hole_end(self, at, stop):
        """Where the hole ends that a byte lies in: it lies on `zero` lines alone."""
        while at < stop and self.is_zeros(at // SECTOR):
            at = min(stop, at - at % SECTOR + SECTOR)
        return at

    def pieces(self, offset, length, cookie, again):
        """Pieces of lines without units and data blocks. One that fails is read again by pieces of 8 sectors, and one of these sector
        by sector, up to the one that fails; `zero` lines at its beginning are a hole. The first read fails once if `again` is set."""
        at, end = offset, offset + length
        slow = single = offset
        while at < end:
            stop = min(end, at - at % SECTOR + (SECTOR if at < single else FEW if at < slow else PIECE))
            behind = self.hole_end(at, stop)
            if behind > at:
                yield chunk(OFFSET_HOLE, struct.pack(">QI", at, behind - at), cookie, int(behind == end))
                at = behind
            elif not again and not self.fails(at, stop - at):
                yield from self.shown(at, stop, cookie, stop == end)
                at = stop
            elif at // SECTOR < (stop - 1) // SECTOR:
                many = (stop - 1) // SECTOR - at // SECTOR >= FEW // SECTOR
                again, slow, single = False, stop if many else slow, single if many else stop
            else:
                yield failed_at(EIO, at, cookie)
                return

    def status(self, offset, length, one=False):
        """The extents of some bytes: those of zero lines are holes, by ranges of sectors, and those of blocks of zeros that are read."""
        if not length or offset + length > len(self.content):
            return failed(EINVAL)
        extents = self.extents_read(offset, length, one) if self.is_ignoring(offset // SECTOR) else self.extents(offset, length)
        told = b"".join(struct.pack(">II", count, HOLE_AND_ZERO if zeros else 0) for count, zeros in extents[:1 if one else None])
        return chunk(BLOCK_STATUS, struct.pack(">I", 1) + told)

    def extents(self, offset, length):
        """Of the lines alone, up to lines that ignore blocks of zeros."""
        extents, at, end = [], offset, offset + length
        while at < end and not self.is_ignoring(at // SECTOR):
            zeros, stop = self.is_zeros(at // SECTOR), min(end, at - at % SECTOR + SECTOR)
            go_on(extents, stop - at, zeros)
            at = stop
        return extents

    def extents_read(self, offset, length, one):
        """Of bytes that are read: those of one look at most, which end before other lines. All are data where one can't be read."""
        look = PART if one else LOOK
        end, sector = min(offset + length, offset - offset % look + look), offset // SECTOR
        while sector * SECTOR < end and self.is_ignoring(sector):
            sector += 1
        end = min(end, sector * SECTOR)
        if self.fails(offset, end - offset):
            return [[end - offset, False]]
        extents, at = [], offset
        while at < end:
            stop = min(end, at - at % BLOCK + BLOCK)
            go_on(extents, stop - at, not any(self.content[at:stop]))
            at = stop
        return extents

    def write(self, offset, data):
        if not self.writable:
            return reply(EPERM)
        if offset + len(data) > len(self.content):
            return reply(ENOSPC)
        if self.fails(offset, len(data)):
            return reply(EIO)
        self.content[offset : offset + len(data)] = data
        return reply()

    def trim(self, offset, length):
        if not self.writable:
            return reply(EPERM)
        return reply(EINVAL) if offset + length > len(self.content) else reply()

    def cache(self, offset, length):
        """The first 32 MiB are read, and none of their bytes are sent."""
        if offset + length > len(self.content):
            return reply(EINVAL)
        return reply(EIO if self.fails(offset, min(length, MOST)) else 0)


READ_ONLY, SEND_TRIM, SEND_WRITE_ZEROES, SEND_DF, CAN_MULTI_CONN, SEND_FAST_ZERO = 1 << 1, 1 << 5, 1 << 6, 1 << 7, 1 << 8, 1 << 11
# HAS_FLAGS, SEND_FLUSH, SEND_FUA and SEND_CACHE
FLAGS = 1 | 1 << 2 | 1 << 3 | 1 << 10
FUA, NO_HOLE, DF, REQ_ONE, FAST_ZERO = (1 << bit for bit in range(5))
SECTOR = 512
RAMP = b"".join(bytes([k % 256]) * SECTOR for k in range(8))
ZEROS = bytes(4 * SECTOR)


def exports():
    """The devices of the stack text below, over `R=ramp:8`, `Z=zero:4` and `F`, a file of eight sectors."""
    return {
        "low": Export("low", RAMP, writable=True),
        "kept": Export("kept", RAMP, shared=False),
        "holed": Export("holed", RAMP[: 2 * SECTOR] + bytes(SECTOR) + RAMP[3 * SECTOR :], writable=True, lost=[(2, 3)]),
        "file": Export("file", bytes((7 * k + 3) % 251 for k in range(8 * SECTOR)), writable=True),
        "sparse": Export("sparse", RAMP[: 2 * SECTOR] + bytes(5 * SECTOR) + RAMP[: 3 * SECTOR] + bytes(SECTOR), zeros=[(2, 7), (10, 11)], shared=False),
        "over": Export("over", (RAMP[: 2 * SECTOR] + bytes(5 * SECTOR))[SECTOR:] + bytes(4 * SECTOR), zeros=[(1, 6)], shared=False),
    }


STACK = (
    "low,,,rw,0 8 linear R 0;kept,,,ro,0 8 linear R 0;"
    "holed,,,rw,0 2 linear R 0,2 1 error,3 5 linear R 3;file,,,rw,0 8 linear F 0;"
    "sparse,,,ro,0 2 linear R 0,2 4 zero,6 1 zero,7 3 linear R 0,10 1 zero;over,,,ro,0 6 linear /dev/mapper/sparse 1,6 4 linear Z 0"
)


def begins_to_differ(found, wanted):
    """Where the first byte is that differs. Equal bytes, which may be hundreds of MB, aren't looked at one by one."""
    return len(wanted) if found == wanted else len(os.path.commonprefix([bytes(found), bytes(wanted)]))


# What standard error has of a client that broke the protocol or was lost, and what the last line of the log says of it.
ENDS = {
    b"client 1 Lost\n": b"the client disconnected in a message",
    b"client 2 Magic\n": b"the client broke the protocol",
    b"client 3 Flags\n": b"the client broke the protocol",
    b"client 4 NoSuchExport\n": b"there is no such export",
    b"client 5 TooManyOptions\n": b"the client sent too many options",
}


def faults_line(faults, requests):
    """What standard error has of a client some of whose requests had faults."""
    return b"faults %d requests %d\n" % (faults, requests)


# The lines on standard error on a service of less than a minute, unless it is quiet: one for each export before the greeting, one for
# each sector that a request lost and one for a failed sync, and those at its end.
START = re.compile(rb"(?:dmstack: export [!-~]+ ([0-9]+) bytes (r[ow])(?:, root [0-9a-f]+)?\n)+")
LOG = re.compile(START.pattern + rb"(?:dmstack: export [!-~]+: (?:sector [0-9]+|flush): [A-Za-z]+(?: [0-9]+|, data block [0-9]+)?\n)*(?:dmstack: [0-9]+ more faulty requests\n)?dmstack: served .*\n")
MOST_LISTED = 60


def start_of(served):
    """The line for each of these exports."""
    return b"".join(b"dmstack: export %s %d bytes %s\n" % (it.name.encode(), len(it.content), b"rw" if it.writable else b"ro") for it in served)


def log_of(name, counts, lost, kind, reason):
    """The lines after the first on a service of that export: on the first sectors that were lost (of a failed sync None), by faults of a
    kind, on the requests and their bytes, and why it ended."""
    listed = list(dict.fromkeys(lost))[:MOST_LISTED]
    places = [b"flush" if sector is None else b"sector %d" % sector for sector in listed]
    lines = b"".join(b"dmstack: export %s: %s: %s\n" % (name.encode(), place, kind) for place in places)
    more = b"dmstack: %d more faulty requests\n" % (len(lost) - len(listed)) if len(lost) > len(listed) else b""
    full = len(lost) if kind.startswith(b"NoSpace") else 0
    faults = len(lost) - full, full
    return lines + more + b"dmstack: served %d requests of %d bytes, %d with an input/output error, %d with NoSpace; %s\n" % (*counts, *faults, reason)


def counts_of(sent, size, writable):
    """How many requests are answered, and the bytes of the READs and WRITEs among them that are within an export."""
    asked, chunked = requests_of(sent), option(STRUCTURED) in sent
    return len(asked), sum(length for kind, bits, offset, length in asked if moves(kind, bits, chunked) and (kind == READ or writable) and length <= MOST and offset + length <= size)


def moves(kind, bits, chunked):
    """Whether a request is a READ or WRITE that sets no flags but its own."""
    return kind == READ and not bits & ~(FUA | (DF if chunked else 0)) or kind == WRITE and not bits & ~FUA


def taken(pipe, count):
    """So many bytes of a pipe, or all if it ends before."""
    found = b""
    while len(found) < count and (more := pipe.read(count - len(found))):
        found += more
    return found


def without_log(errors):
    """The error output without these lines, if it has them."""
    return LOG.sub(b"", errors, 1)


def requests_of(sent):
    """The requests that a client sends and that are answered, each whole one but DISC: kinds, flags, offsets and lengths."""
    at, found = 4, []
    while sent[at : at + 8] == OPTION_MAGIC:
        at += 16 + int.from_bytes(sent[at + 12 : at + 16], "big")
    while sent[at : at + 4] == struct.pack(">I", REQUEST) and at + 28 <= len(sent):
        bits, kind, _, offset, length = struct.unpack(">HHQQI", sent[at + 4 : at + 28])
        at += 28 + (length if kind == WRITE else 0)
        if kind == DISC or at > len(sent):
            break
        found.append((kind, bits, offset, length))
    return found


def reason_of(sent):
    """Why a session ends whose messages are whole: the client ends it, by ABORT or DISC, or its messages end."""
    at = 4
    while sent[at : at + 8] == OPTION_MAGIC:
        number, count = struct.unpack(">II", sent[at + 8 : at + 16])
        if number == ABORT:
            return b"the client ended the session"
        at += 16 + count
    while sent[at : at + 4] == struct.pack(">I", REQUEST) and at + 28 <= len(sent):
        _, kind, _, _, length = struct.unpack(">HHQQI", sent[at + 4 : at + 28])
        if kind == DISC:
            return b"the client ended the session"
        at += 28 + (length if kind == WRITE else 0)
    return b"the client disconnected"


def lost_in(sent, export):
    """The sector of each request that ends with a fault: the one that a READ or CACHE can't read, or a write in which it begins or ends;
    else the first one of the write, which is a single piece."""
    found = []
    for kind, bits, offset, length in requests_of(sent):
        tried = min(length, MOST) if kind == CACHE else length
        if kind in (READ, CACHE, WRITE, ZEROES) and offset + length <= len(export.content) and export.fails(offset, tried):
            first, end = offset // SECTOR, offset + length
            parts = [first] * (offset % SECTOR > 0) + [end // SECTOR] * (end % SECTOR > 0)
            parts = [it for it in parts if export.fails(it * SECTOR, SECTOR)]
            if kind in (READ, CACHE):
                first = next(max(first, low) for low, high in export.lost if first < high)
            found.append(parts[0] if parts and kind in (WRITE, ZEROES) else first)
    return found


def served_by(sent, name):
    """The export that a client is served: of several that which it opened, if it opened one."""
    found, at = exports(), 4
    while name is None and sent[at : at + 8] == OPTION_MAGIC:
        number, count = struct.unpack(">II", sent[at + 8 : at + 16])
        data = sent[at + 16 : at + 16 + count]
        if number in (EXPORT_NAME, GO):
            named = data if number == EXPORT_NAME else data[4 : 4 + int.from_bytes(data[:4], "big")]
            opened = named.decode("latin-1") or next(iter(found))
            if opened in found:
                return found[opened]
        at += 16 + count
    return found.get(name)


class Runner(Checks):
    """Runs exchanges on the program, and counts those that agree."""

    def __init__(self, program):
        super().__init__()
        self.program = program

    def run(self, label, name, sent, wanted, status=0, after=None, told=b""):
        """The device of that name is served, or each one where there is none. What isn't a reply goes to standard error."""
        open("F", "wb").write(exports()["file"].content)
        open("stack", "w").write(STACK)
        named = ["--all", "stack"] if name is None else ["stack", name]
        words = [self.program, "nbd", *named, "R=ramp:8", "Z=zero:4", "F=rw:F"]
        done = subprocess.run(words, input=sent, capture_output=True, timeout=60)
        problems = []
        if done.stdout != wanted:
            at = begins_to_differ(done.stdout, wanted)
            problems.append(f"output differs at {at}: {done.stdout[at:at+32].hex()} and not {wanted[at:at+32].hex()}")
        if done.returncode != status:
            problems.append(f"status {done.returncode} and not {status}")
        served = [] if status == 1 else [*exports().values()] if name is None else [exports()[name]]
        lost = lost_in(sent, exports()[name]) if status == 3 else []
        e = served_by(sent, name) if served else None
        counts = counts_of(sent, len(e.content), e.writable) if e else (0, 0)
        ends = ENDS.items() if status == 4 and not told else [(told, ENDS.get(told) or reason_of(sent))]
        wanted_errors = [(start_of(served) + log_of(name or "", counts, lost, b"ErrorTarget", reason) if served else b"") + line for line, reason in ends]
        if without_sentence(b"", done.stderr, done.returncode) not in wanted_errors:
            problems.append(f"standard error: {done.stderr[:200]!r}")
        if after is not None and open("F", "rb").read() != after:
            problems.append("the image differs")
        self.count(label, not problems, "; ".join(problems))

    def serve(self, label, words, sent, wanted, lost=(), limited=None, kind=b"ErrorTarget"):
        """The service with these arguments reads what is sent, and then the end of its input. So many requests lose these sectors, by
        faults of a kind. `limited`, if given, is called in the service's process before the program begins."""
        done = subprocess.run([self.program, "nbd", *words], input=sent, capture_output=True, timeout=60, preexec_fn=limited)
        at, status = begins_to_differ(done.stdout, wanted), 3 if lost else 0
        told = without_sentence(b"", done.stderr, done.returncode) or b""
        start = START.match(told)
        good = done.stdout == wanted and done.returncode == status and start
        size, rights = start.groups() if start else (b"0", b"ro")
        counts = counts_of(sent, int(size), rights == b"rw")
        good = good and told[start.end() :] == log_of(words[1], counts, lost, kind, reason_of(sent)) + (faults_line(len(lost), counts[0]) if lost else b"")
        self.count(label, good, f"differs at {at} of {len(wanted)}, status {done.returncode}, {done.stderr[:200]!r}")


def begun(export, bits=3):
    """What opens the transmission by EXPORT_NAME, and what is written up to then."""
    fields = struct.pack(">QH", len(export.content), export.bits()) + (b"" if bits & 2 else bytes(124))
    return flags(bits) + option(EXPORT_NAME, export.name.encode()), GREETING + fields


def begun_in_chunks(export, status=False):
    """The same by GO, where chunks were asked for, and the status of blocks."""
    name = export.name.encode()
    sent, wanted = flags(3) + option(STRUCTURED), GREETING + option_reply(STRUCTURED, ACK)
    if status:
        sent += option(SET_META, queries(name, b"base:allocation"))
        wanted += context(SET_META, 1) + option_reply(SET_META, ACK)
    return sent + option(GO, asks(name)), wanted + export.told(GO, structured=True)
