"""Exchanges of the NBD protocol: requests, and reads in chunks."""
import struct
import subprocess

from nbd_messages import (
    ACK, BLOCK, CACHE, DF, DISC, EINVAL, EIO, EXPORT_NAME, Export, FAST_ZERO, FLUSH, FUA, GO, GREETING, INVALID, LIST, MOST, NO_HOLE, PIECE,
    READ, REQ_ONE, SECTOR, SERVER, STATUS, STRUCTURED, TRIM, WRITE, ZEROES, asks, begun, begun_in_chunks, exports, failed,
    faults_line, flags, lost_in, option, option_reply, reply, request, taken, without_log,
)
from verity import Tree, grown

# The memory that a session may take while it serves a CACHE.
CACHE_MEMORY = 8 << 20


def transmissions(runner):
    """Requests: aligned and not, across both ends, each field wrong in turn."""
    for name in ("low", "kept", "file"):
        e = exports()[name]
        size = len(e.content)
        sent, wanted = begun(e)
        places = (0, 1, 511, 512, 513, 1023, size - 513, size - 512, size - 1, size, size + 1, 1 << 40, 2**63, 2**64 - 1)
        for offset in places:
            for length in (0, 1, 2, 511, 512, 513, 1024, 1025, size, MOST + 1, 2**32 - 1):
                sent += request(READ, offset, length, offset ^ length)
                wanted += e.read(offset, length)[:8] + struct.pack(">Q", offset ^ length) + e.read(offset, length)[16:]
        runner.run(f"reads of {name}", name, sent + request(DISC), wanted)
        for bits in (FUA, NO_HOLE, FUA | NO_HOLE, DF, REQ_ONE, FAST_ZERO, 0x8000, 0x8001):
            asked, told = begun(e)
            for kind, length, good in ((READ, 512, e.read(0, 512)), (FLUSH, 0, reply()), (TRIM, 512, e.trim(0, 512)), (CACHE, 512, e.cache(0, 512))):
                asked += request(kind, 0, length, bits=bits)
                told += good if bits == FUA else reply(EINVAL)
            runner.run(f"flag {bits}", name, asked + request(READ, 0, 512), told + e.read(0, 512))
        for kind, answer in ((TRIM, e.trim), (CACHE, e.cache)):
            asked, told = begun(e)
            for offset in places:
                for length in (0, 1, 512, size, MOST + 1, 2**32 - 1):
                    asked += request(kind, offset, length) + request(READ, 0, 512)
                    told += answer(offset, length) + e.read(0, 512)
            runner.run(f"hints {kind} of {name}", name, asked, told, after=bytes(exports()["file"].content))
        for kind in (STATUS, 8, 100, 65535):
            asked, told = begun(e)
            runner.run(f"kind {kind}", name, asked + request(kind, 0, 512) + request(READ, 1, 2), told + reply(EINVAL) + e.read(1, 2))
        for k in range(4):
            asked, told = begun(e)
            wrong = bytearray(request(READ, 0, 512))
            wrong[k] ^= 0x80
            runner.run(f"magic at {k}", name, asked + request(READ, 0, 1) + bytes(wrong), told + e.read(0, 1), status=4)
        asked, told = begun(e)
        runner.run("after the end", name, asked + request(DISC) + b"anything", told)
        runner.run("end with fields", name, asked + request(DISC, 5, 7, 9, 3), told)
    e = exports()["holed"]
    sent, wanted = begun(e)
    for offset in (0, 1023, 1024, 1500, 1535, 1536, 2000):
        for length in (1, 2, 512, 513, 1024):
            sent += request(READ, offset, length)
            wanted += e.read(offset, length)
    runner.run("reads of holed", "holed", sent, wanted, status=3, told=faults_line(19, 35))
    sent, wanted = begun(e)
    for offset in (0, 1023, 1024, 1500, 1535, 1536, 2000):
        for length in (0, 1, 2, 512, 513, 1024, size):
            sent += request(CACHE, offset, length)
            wanted += e.cache(offset, length)
    runner.run("caches of holed", "holed", sent, wanted, status=3, told=faults_line(20, 49))


def chunks(runner):
    """Structured replies: how they are agreed on, and each READ in chunks, with each field wrong in turn."""
    listed = option_reply(LIST, SERVER, struct.pack(">I", 3) + b"low") + option_reply(LIST, ACK)
    e = exports()["low"]
    opened, told = option(GO, asks(b"low", 3)), e.told(GO, True)
    for data in (b"x", bytes(8)):
        sent = flags(3) + option(STRUCTURED, data) + option(LIST) + opened + request(READ, 0, 8) + request(READ, 0, 8, bits=DF)
        runner.run("structured with data", "low", sent, GREETING + option_reply(STRUCTURED, INVALID) + listed + told + e.read(0, 8) + reply(EINVAL))
    for again in (1, 2, 3):
        sent = flags(3) + again * option(STRUCTURED) + opened + request(READ, 0, 8)
        runner.run(f"structured, {again} times", "low", sent, GREETING + again * option_reply(STRUCTURED, ACK) + e.told(GO, True, True) + e.chunks(0, 8))
    for bits in (1, 3):
        fields = struct.pack(">QH", len(e.content), e.bits(True)) + (b"" if bits & 2 else bytes(124))
        sent = flags(bits) + option(STRUCTURED) + option(EXPORT_NAME, b"low") + request(READ, 5, 600)
        runner.run("structured before EXPORT_NAME", "low", sent, GREETING + option_reply(STRUCTURED, ACK) + fields + e.chunks(5, 600))
    for name in ("low", "kept", "file", "sparse", "over"):
        e = exports()[name]
        size = len(e.content)
        sent, wanted = begun_in_chunks(e)
        for offset in (0, 1, 511, 512, 513, 1023, size - 513, size - 512, size - 1, size, size + 1, 1 << 40, 2**63, 2**64 - 1):
            for length in (0, 1, 2, 511, 512, 513, 1024, 1025, size, MOST + 1, 2**32 - 1):
                sent += request(READ, offset, length, offset ^ length)
                wanted += e.chunks(offset, length, offset ^ length)
        runner.run(f"reads of {name} in chunks", name, sent + request(DISC), wanted)
        for bits in (0, FUA, NO_HOLE, DF, FUA | DF, NO_HOLE | DF, REQ_ONE, REQ_ONE | DF, FAST_ZERO, 0x8000, 0x8004):
            asked, found = begun_in_chunks(e)
            asked += request(READ, 0, 700, bits=bits) + request(CACHE, 0, 512, bits=bits) + request(FLUSH, bits=bits)
            found += e.chunks(0, 700, df=bits & DF) if bits & ~(FUA | DF) == 0 else failed(EINVAL)
            found += 2 * (reply() if bits & ~FUA == 0 else reply(EINVAL))
            runner.run(f"flag {bits} in chunks", name, asked + request(READ, 0, 512), found + e.chunks(0, 512))
        asked, found = begun_in_chunks(e)
        for kind in (STATUS, 8, 65535):
            asked += request(kind, 0, 512)
            found += failed(EINVAL) if kind == STATUS else reply(EINVAL)
        asked += request(WRITE, 510, 4, data=b"four") + request(ZEROES, 0, 2) + request(TRIM, 0, 2) + request(READ, 508, 8)
        found += e.write(510, b"four") + e.write(0, bytes(2)) + e.trim(0, 2) + e.chunks(508, 8)
        runner.run(f"others of {name} beside chunks", name, asked, found)
    e = exports()["holed"]
    sent, wanted = begun_in_chunks(e)
    for offset in (0, 1023, 1024, 1500, 1535, 1536, 2000):
        for length in (1, 2, 512, 513, 1024):
            sent += request(READ, offset, length) + request(READ, offset, length, bits=DF)
            wanted += e.chunks(offset, length) + e.chunks(offset, length, df=True)
    runner.run("reads of holed in chunks", "holed", sent, wanted, status=3, told=faults_line(38, 70))
    large_chunks(runner)
    large_holes(runner)
    large_zeros(runner)


def large_chunks(runner):
    """READs of several pieces, with and without DF, before a sector that fails and over it, at the ends of pieces."""
    size = 9 * PIECE // 2
    content = b"".join(struct.pack(">I", k) for k in range(size // 4))
    sectors = size // SECTOR
    for lost in ((), (0,), (1,), (2047,), (2048,), (2049, 2800), (4095, 4096), (4102,), (sectors - 1,)):
        lines, at = [], 0
        for k in (*lost, sectors):
            lines += [f"{at} {k - at} linear F {at}"] * (at < k) + [f"{k} 1 error"] * (k < sectors)
            at = k + 1
        open("large", "w").write("l,,,ro," + ",".join(lines))
        open("F", "wb").write(content)
        e = Export("l", content, lost=[(k, k + 1) for k in lost])
        sent, wanted = map(bytearray, begun_in_chunks(e))
        for offset in (0, 1, 511, 512, PIECE - 513, PIECE - 512, PIECE - 1, PIECE, PIECE + 1, 2 * PIECE - 1024, 4 * PIECE - 3, size - 1):
            for length in (1, 512, 513, 1025, PIECE - 1, PIECE, PIECE + 1, 3 * PIECE, size - offset):
                if offset + length <= size:
                    cookie = offset ^ length << 32
                    sent += request(READ, offset, length, cookie) + request(READ, offset, length, cookie, bits=DF)
                    wanted += e.chunks(offset, length, cookie) + e.chunks(offset, length, cookie, df=True)
        runner.serve(f"large reads with {lost} lost", ["large", "l", "F=ro:F"], sent + request(DISC), wanted, lost_in(sent, e))


def large_holes(runner):
    """READs of several pieces over zeros, data and a sector that fails: where a piece begins with zeros, they are a hole."""
    for lines in (
        (("zero", 9216),),
        (("linear", 3), ("zero", 2785), ("linear", 1600), ("error", 1), ("zero", 799), ("linear", 4028)),
        (("zero", 2048), ("linear", 2048), ("zero", 1), ("linear", 2047), ("zero", 3072)),
        (("zero", 5), ("error", 1), ("zero", 6), ("linear", 1), ("zero", 1), ("error", 1), ("zero", 9201)),
    ):
        at, text, content, spans = 0, [], b"", {"zero": [], "error": [], "linear": []}
        for kind, count in lines:
            text.append(f"{at} {count} {kind}" + (f" F {at}" if kind == "linear" else ""))
            content += bytes(count * SECTOR) if kind != "linear" else b"".join(struct.pack(">I", k) for k in range(at * 128, (at + count) * 128))
            spans[kind].append((at, at + count))
            at += count
        open("holes", "w").write("h,,,ro," + ",".join(text))
        open("F", "wb").write(b"".join(struct.pack(">I", k) for k in range(at * 128)))
        e = Export("h", content, lost=spans["error"], zeros=spans["zero"])
        sent, wanted = map(bytearray, begun_in_chunks(e))
        for offset in (0, 1, 511, 512, 3 * SECTOR - 1, 3 * SECTOR, 5 * SECTOR, 13 * SECTOR, PIECE - 1, PIECE, 2 * PIECE - 3, 4 * PIECE + 1):
            for length in (1, 511, 512, 513, 1025, 700 * SECTOR, PIECE - 1, PIECE, PIECE + 1, 3 * PIECE, len(content) - offset):
                if offset + length <= len(content):
                    sent += request(READ, offset, length, offset) + request(READ, offset, length, offset, bits=DF)
                    wanted += e.chunks(offset, length, offset) + e.chunks(offset, length, offset, df=True)
        runner.serve(f"reads of {lines}", ["holes", "h", "F=ro:F"], sent + request(DISC), wanted, lost_in(sent, e))


def large_zeros(runner):
    """READs of several pieces of a file that holds zeros, at the ends of pieces and beside them, in whole blocks and others."""
    data, block = bytes(1 + k % 255 for k in range(BLOCK)), bytes(BLOCK)
    for spans in (
        (bytes(3 * PIECE),),
        (bytes(PIECE), data, bytes(PIECE - BLOCK - 1), b"x", bytes(PIECE)),
        (block, data, bytes(PIECE - 3 * BLOCK), data, data, block, data, bytes(PIECE - 3 * BLOCK)),
        (b"x", bytes(PIECE - 1), bytes(PIECE - 1), b"x", bytes(BLOCK - 1), b"x", bytes(PIECE - BLOCK - SECTOR), data[:SECTOR]),
        (bytes(SECTOR), data, bytes(3 * SECTOR)),
        (bytes(2 * BLOCK - SECTOR), data[:SECTOR], bytes(BLOCK + SECTOR)),
    ):
        content = b"".join(spans)
        size = len(content)
        open("zeros", "w").write(f"z,,,ro,0 {size // SECTOR} linear F 0")
        open("F", "wb").write(content)
        e = Export("z", content)
        sent, wanted = map(bytearray, begun_in_chunks(e))
        for offset in (0, 1, SECTOR, BLOCK - 1, BLOCK, 2 * BLOCK + 3, PIECE - BLOCK, PIECE - 1, PIECE, 2 * PIECE - 3):
            for length in (1, SECTOR, BLOCK - 1, BLOCK, BLOCK + 1, 3 * BLOCK, PIECE - 1, PIECE, 2 * PIECE, size - offset):
                if 0 < length and offset + length <= size:
                    sent += request(READ, offset, length, offset) + request(READ, offset, length, offset, bits=DF)
                    wanted += e.chunks(offset, length, offset) + e.chunks(offset, length, offset, df=True)
        runner.serve(f"reads of zeros in {len(spans)} spans of a file", ["zeros", "z", "F=ro:F"], sent + request(DISC), wanted)


def gone(runner):
    """A client that goes away at each byte of a reply in chunks: the program ends by itself, with the writer's fault."""
    size = 2 * PIECE + 700
    size -= size % SECTOR
    content = bytes(k * k % 253 for k in range(size))
    open("large", "w").write(f"l,,,ro,0 {size // SECTOR} linear F 0")
    open("F", "wb").write(content)
    e = Export("l", content)
    sent, told = begun_in_chunks(e)
    whole = told + e.chunks(3, size - 3)
    heads = [len(told) + k for k in range(40)] + [len(told) + 20 + 8 + PIECE - 3 + k for k in range(-2, 40)] + [len(whole) - k for k in range(4)]
    for count in heads:
        served = subprocess.Popen([runner.program, "nbd", "large", "l", "F=ro:F"], bufsize=0, stdin=subprocess.PIPE, stdout=subprocess.PIPE, stderr=subprocess.PIPE)
        served.stdin.write(sent + request(READ, 3, size - 3))
        found = taken(served.stdout, count)
        for it in (served.stdout, served.stdin):
            it.close()
        told_of = served.stderr.read()
        served.stderr.close()
        status = served.wait(60)
        # the last bytes may be in the pipe already
        wanted = (1,) if len(whole) - count > 1 << 17 else (0, 1)
        runner.count(f"gone behind {count} bytes", found == whole[:count] and not without_log(told_of) and status in wanted, f"status {status}, {told_of[:80]!r}")


def caches(runner):
    """CACHEs of more than 32 MiB: the first 32 MiB are read, and no more. The first sector after them can't be read."""
    size, lost = MOST + 4 * PIECE, MOST // SECTOR
    open("long", "w").write(f"l,,,ro,0 {lost} linear F 0,{lost} 1 error,{lost + 1} {size // SECTOR - lost - 1} linear F {lost + 1}")
    with open("F", "wb") as it:
        it.truncate(size)
    e = Export("l", bytes(size), lost=[(lost, lost + 1)])
    sent, told = begun(e)
    asked = [(0, MOST, 0), (0, MOST + 1, 0), (0, size, 0), (1, MOST - 1, 0), (1, MOST, EIO), (SECTOR, size - SECTOR, EIO), (MOST - 1, 2, EIO)]
    asked += [(MOST, 1, EIO), (MOST + SECTOR, 4 * PIECE - SECTOR, 0), (1, size, EINVAL), (0, 2**32 - 1, EINVAL), (size, 0, 0)]
    for offset, length, error in asked:
        sent += request(CACHE, offset, length, cookie=offset ^ length)
        told += reply(error, cookie=offset ^ length)
    runner.serve("caches of more than 32 MiB", ["long", "l", "F=ro:F"], sent, told, [lost] * 4)
    open("long", "w").write(f"l,,,ro,0 {size // SECTOR} linear F 0")
    cached_bytes(runner, size)


def cached_bytes(runner, size):
    """How many bytes a CACHE reads, by the kernel's count of the process: the request, and the sectors of the first 32 MiB."""
    sent, told = begun(Export("l", bytes(size), shared=True))
    served = subprocess.Popen([runner.program, "nbd", "long", "l", "F=ro:F"], bufsize=0, stdin=subprocess.PIPE, stdout=subprocess.PIPE, stderr=subprocess.DEVNULL)
    served.stdin.write(sent)
    good, before = taken(served.stdout, len(told)) == told, bytes_read(served.pid)
    runner.count("bytes that a CACHE reads: it begins", good)
    for offset, length, wanted in (
        (0, 0, 0), (0, 1, SECTOR), (700, 1, SECTOR), (1023, 2, 2 * SECTOR), (PIECE, 3 * PIECE, 3 * PIECE), (PIECE // 2, PIECE + 1, PIECE + SECTOR),
        (0, MOST, MOST), (0, size, MOST), (PIECE // 2, MOST + 1, MOST), (size, 0, 0),
    ):
        asked = request(CACHE, offset, length)
        served.stdin.write(asked)
        good = taken(served.stdout, len(reply())) == reply()
        after = bytes_read(served.pid)
        runner.count(f"bytes that a CACHE of {length} bytes at {offset} reads", good and after - before == len(asked) + wanted, f"{after - before - len(asked)} and not {wanted}")
        before = after
    peak = most_memory(served.pid)
    runner.count("memory that a CACHE takes", 0 < peak <= CACHE_MEMORY, f"{peak} bytes, and not at most {CACHE_MEMORY}")
    rest, _ = served.communicate(request(DISC), timeout=60)
    runner.count("bytes that a CACHE reads: the end", not rest and served.returncode == 0)


def most_memory(process):
    """The most memory in bytes that a process had, of which some is that of the program's file."""
    with open(f"/proc/{process}/status", encoding="ascii") as it:
        return 1024 * int(next(line.split()[1] for line in it if line.startswith("VmHWM:")))


def bytes_read(process):
    """How many bytes a process has read by calls of the system."""
    with open(f"/proc/{process}/io", encoding="ascii") as it:
        return int(it.readline().split()[1])


def kept_blocks(runner):
    """READs of the parts of a data block, whose device is emptied after the first: none of the others reads it, but with `--cache 0`
    each does. A READ of all of the block reads it, fails, and is then answered by its sectors; one of the next block fails."""
    content = bytes((3 * k + k // SECTOR) % 251 for k in range(2 * BLOCK))
    tree = Tree(BLOCK, BLOCK, 2)
    placed, root = grown(tree, b"salt", [content[:BLOCK], content[BLOCK:]])
    open("H", "wb").write(b"".join(placed[place] for place in range(sum(tree.levels))))
    open("kept", "w").write(f"v,,,ro,0 16 verity 1 D H {BLOCK} {BLOCK} 2 0 sha256 {root.hex()} {b'salt'.hex()}")
    e = Export("v", content)
    sent, told = begun(e)
    parts = [(at, SECTOR) for at in range(0, BLOCK, SECTOR)]
    for cache in (64, 1, 0):
        open("D", "wb").write(content)
        words = [runner.program, "nbd", "--cache", str(cache), "kept", "v", "D=ro:D", "H=ro:H"]
        served = subprocess.Popen(words, bufsize=0, stdin=subprocess.PIPE, stdout=subprocess.PIPE, stderr=subprocess.PIPE)
        served.stdin.write(sent + request(READ, *parts[0]))
        first = told + e.read(*parts[0])
        found = taken(served.stdout, len(first))
        open("D", "wb").close()
        others = parts[1:] + [(700, 900), (0, BLOCK), (BLOCK, SECTOR)]
        rest, said = served.communicate(b"".join(request(READ, *part) for part in others) + request(DISC), timeout=60)
        wanted = b"".join(e.read(*part) if cache and part[0] < BLOCK else reply(EIO) for part in others)
        runner.count(f"kept blocks, --cache {cache}", found == first and rest == wanted and served.returncode == 3, said[:200])
