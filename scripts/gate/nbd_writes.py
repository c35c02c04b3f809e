"""Exchanges of the NBD protocol: writes, zeros, and writes through `crypt` lines."""
import resource
import signal
import struct

from cipher import xts_encrypt
from nbd_messages import (
    DF, DISC, EINVAL, EIO, ENOSPC, ENOTSUP, EPERM, Export, FAST_ZERO, FLUSH, FUA, MOST, NO_HOLE, RAMP, READ, REQ_ONE, SECTOR, WRITE, ZEROES, begun,
    exports, faults_line, reply, request,
)


def writes(runner):
    """Writes, each followed by reads of what it left."""
    e = exports()["file"]
    size = len(e.content)
    sent, wanted = begun(e)
    for step, offset in enumerate((0, 1, 511, 512, 513, 1024, size - 513, size - 512, size - 1, size, 2**64 - 1)):
        for length in (0, 1, 2, 511, 512, 513, 1024, 1025, size):
            data = bytes((step + length + 3 * k) % 256 for k in range(length))
            sent += request(WRITE, offset, length, data=data)
            wanted += e.write(offset, data)
            sent += request(READ, 0, size)
            wanted += e.read(0, size)
    sent += request(WRITE, 0, MOST + 1, data=bytes(MOST + 1)) + request(READ, 0, 8)
    wanted += reply(EINVAL) + e.read(0, 8)
    runner.run("writes", "file", sent + request(FLUSH) + request(DISC), wanted + reply(), after=bytes(e.content))
    kept = exports()["kept"]
    asked, told = begun(kept)
    for length in (0, 1, 512, MOST + 1):
        asked += request(WRITE, 3, length, data=bytes(length)) + request(ZEROES, 3, length) + request(READ, 0, 8)
        told += reply(EINVAL if length > MOST else EPERM) + reply(EPERM) + kept.read(0, 8)
    asked += request(ZEROES, 3, 9, bits=FAST_ZERO)
    told += reply(EPERM)
    runner.run("writes of an export that may only be read", "kept", asked + request(FLUSH), told + reply())
    for bits in (FUA, NO_HOLE, FUA | NO_HOLE, DF, FAST_ZERO, 1 << 15):
        e = exports()["file"]
        asked, told = begun(e)
        asked += request(WRITE, 0, 5, bits=bits, data=b"abcde") + request(READ, 0, 8)
        told += e.write(0, b"abcde") if bits == FUA else reply(EINVAL)
        runner.run(f"write with flag {bits}", "file", asked, told + e.read(0, 8), after=bytes(e.content))
    e = exports()["file"]
    for offset, length in ((1, 0), (0, 1), (2**64 - 1, 2**32 - 1)):
        asked, told = begun(e)
        runner.run(f"flush of {length} bytes at {offset}", "file", asked + request(FLUSH, offset, length), told + reply(EINVAL))
    e = exports()["holed"]
    asked, told = begun(e)
    # the sector before the fault is written; a part of a sector that can't be read keeps all from being written
    asked += request(WRITE, 512, 1024, data=b"n" * 1024) + request(READ, 510, 514)
    told += reply(EIO) + reply(data=RAMP[510:512] + b"n" * 512)
    for offset, length in ((1000, 100), (1500, 700), (1024, 1), (1535, 1)):
        asked += request(WRITE, offset, length, data=b"m" * length) + request(READ, 512, 512) + request(READ, 1536, 512)
        told += reply(EIO) + reply(data=b"n" * 512) + reply(data=RAMP[1536:2048])
    asked += request(WRITE, 1000, 24, data=b"k" * 24) + request(READ, 512, 512)
    told += reply() + reply(data=b"n" * 488 + b"k" * 24)
    asked += request(ZEROES, 512, 1024) + request(READ, 510, 514)
    told += reply(EIO) + reply(data=RAMP[510:512] + bytes(512))
    for offset, length in ((1000, 100), (1500, 700), (1024, 1), (1535, 1)):
        asked += request(ZEROES, offset, length) + request(READ, 512, 512) + request(READ, 1536, 512)
        told += reply(EIO) + reply(data=bytes(512)) + reply(data=RAMP[1536:2048])
    runner.run("writes of holed", "holed", asked, told, status=3, told=faults_line(10, 30))


def zeroes(runner):
    """Writes of zeros, each between bytes that aren't zero, by each flag; then longer ones than a write may be."""
    for bits in (0, FUA, NO_HOLE, FUA | NO_HOLE, DF, REQ_ONE, DF | FAST_ZERO, FAST_ZERO, FUA | NO_HOLE | FAST_ZERO, 2 * FAST_ZERO):
        e = exports()["file"]
        size = len(e.content)
        sent, wanted = begun(e)
        for offset in (0, 1, 511, 512, 513, 1024, size - 513, size - 512, size - 1, size, 2**64 - 1):
            for length in (0, 1, 2, 511, 512, 513, 1024, 1025, size, 2**32 - 1):
                sent += request(WRITE, 0, size, data=b"\x5a" * size) + request(ZEROES, offset, length, bits=bits) + request(READ, 0, size)
                wanted += e.write(0, b"\x5a" * size)
                if bits & ~(FUA | NO_HOLE | FAST_ZERO):
                    wanted += reply(EINVAL)
                elif offset + length > size:
                    wanted += reply(ENOSPC)
                else:
                    wanted += reply(ENOTSUP) if bits & FAST_ZERO and length else e.write(offset, bytes(length))
                wanted += e.read(0, size)
        runner.run(f"zeroes with flags {bits}", "file", sent + request(DISC), wanted, after=bytes(e.content))
    size = 80 << 20
    open("long", "w").write(f"f,,,rw,0 {size // SECTOR} linear F 0")
    for offset, length in ((0, size), (1, size - 2), (511, (64 << 20) + 1), (1 << 20, 33 << 20)):
        open("F", "wb").write(b"\xa5" * size)
        sent, wanted = begun(Export("f", bytes(size), writable=True))
        sent += request(ZEROES, offset, length) + request(READ, offset, 8) + request(FLUSH)
        wanted += reply() + reply(data=bytes(8)) + reply()
        runner.serve(f"{length} zeroes at {offset}", ["long", "f", "F=rw:F"], sent, wanted)
        left = b"\xa5" * offset + bytes(length) + b"\xa5" * (size - offset - length)
        runner.count(f"{length} zeroes at {offset}: the image", open("F", "rb").read() == left)


def fast_zeroes(runner):
    """Zeros that must be fast: they are if each sector that they touch is on a `zero` line, and then nothing is written."""
    content = bytes(1 + k % 251 for k in range(8 * SECTOR))
    open("F", "wb").write(content)
    open("fast", "w").write("m,,,rw,0 2 linear F 0,2 4 zero,6 1 zero,7 1 linear F 7;o,,,rw,0 7 linear /dev/mapper/m 1")
    for name, first in (("m", 0), ("o", 1)):
        held = (content[: 2 * SECTOR] + bytes(5 * SECTOR) + content[7 * SECTOR :])[first * SECTOR :]
        low, high = (2 - first) * SECTOR, (7 - first) * SECTOR
        for bits in (FAST_ZERO, FUA | NO_HOLE | FAST_ZERO):
            sent, wanted = begun(Export(name, held, writable=True))
            for offset in (0, 1, low - 1, low, low + 1, low + 512, low + 2048, high - 512, high - 1, high, len(held)):
                for length in (0, 1, 511, 512, 513, 5 * SECTOR - 1, 5 * SECTOR, 5 * SECTOR + 1, len(held)):
                    sent += request(ZEROES, offset, length, bits=bits) + request(READ, 0, len(held))
                    if offset + length > len(held):
                        wanted += reply(ENOSPC)
                    else:
                        wanted += reply(0 if not length or low <= offset and offset + length <= high else ENOTSUP)
                    wanted += reply(data=held)
            runner.serve(f"fast zeroes of {name} with flags {bits}", ["fast", name, "F=rw:F"], sent, wanted)
            runner.count(f"fast zeroes of {name} with flags {bits}: the image", open("F", "rb").read() == content)


def long_runs(runner):
    """Reads and writes of many runs, at the ends of sectors and within them."""
    size = 6 << 20
    before = bytes(size)
    open("long", "w").write(f"f,,,rw,0 {size // SECTOR} linear F 0")
    e = Export("f", before, writable=True)
    sent, wanted = begun(e)
    run = 2048 * SECTOR
    for step, (offset, length) in enumerate(((0, run), (run, run + 1), (511, 2 * run + 2), (run - 1, 3 * run), (3, size - 3), (0, size))):
        data = struct.pack(">I", step + 1) * (length // 4) + b"end"[: length % 4]
        sent += request(WRITE, offset, length, data=data) + request(READ, offset // 2, length)
        wanted += e.write(offset, data) + e.read(offset // 2, length)
    sent += request(READ, 0, size) + request(READ, 1, size - 2) + request(FLUSH)
    wanted += e.read(0, size) + e.read(1, size - 2) + reply()
    open("F", "wb").write(before)
    runner.serve("long runs", ["long", "f", "F=rw:F"], sent, wanted)
    runner.count("long runs: the image", open("F", "rb").read() == bytes(e.content))


def crypt(runner):
    """What is written through a `crypt` line is read back by another stack, and is encrypted in the image."""
    text = "".join(f"{k:02x}" for k in range(64))
    key = bytes.fromhex(text)
    for count in (1, 8):
        line = f"0 16 crypt aes-xts-plain64 {text} 0 F 0" + (f" 1 sector_size:{SECTOR * count}" if count > 1 else "")
        open("F", "wb").write(bytes(16 * SECTOR))
        open("crypt", "w").write(f"c,,,rw,{line}")
        open("back", "w").write(f"b,,,ro,{line}")
        plain = Export("c", bytes(16 * SECTOR), writable=True)
        sent, wanted = begun(plain)
        for offset, length in ((0, 16 * SECTOR), (3, 1), (500, 30), (4000, 200), (4096, 4096), (8191, 1)):
            data = bytes((7 * offset + 5 * k) % 256 for k in range(length))
            sent += request(WRITE, offset, length, data=data) + request(READ, 0, 16 * SECTOR)
            wanted += plain.write(offset, data) + plain.read(0, 16 * SECTOR)
        for offset, length in ((700, 3), (1000, 2000), (4096, 512)):
            sent += request(ZEROES, offset, length, bits=FUA) + request(READ, 0, 16 * SECTOR)
            wanted += plain.write(offset, bytes(length)) + plain.read(0, 16 * SECTOR)
        label = f"writes through crypt, {count} sectors a unit"
        runner.serve(label, ["crypt", "c", "F=rw:F"], sent + request(FLUSH), wanted + reply())
        size = SECTOR * count
        units = [bytes(plain.content[at : at + size]) for at in range(0, 16 * SECTOR, size)]
        runner.count(f"{label}: the image", open("F", "rb").read() == b"".join(xts_encrypt(key, count * k, it) for k, it in enumerate(units)))
        opened, told = begun(Export("b", plain.content))
        runner.serve(f"{label}: read back", ["back", "b", "F=ro:F"], opened + request(READ, 0, 16 * SECTOR), told + plain.read(0, 16 * SECTOR))


def full(runner):
    """A file may have no bytes after its eighth sector. What is written before it stays, and the reply to the write is ENOSPC."""
    limit = 8 * SECTOR

    def limited():
        signal.signal(signal.SIGXFSZ, signal.SIG_IGN)
        resource.setrlimit(resource.RLIMIT_FSIZE, (limit, limit))

    for target, line in (("linear", "0 16 linear F 0"), ("crypt", f"0 16 crypt aes-xts-plain64 {'07' * 64} 0 F 0")):
        open("F", "wb").write(bytes(16 * SECTOR))
        open("full", "w").write(f"f,,,rw,{line}")
        sent, wanted = begun(Export("f", bytes(16 * SECTOR), writable=True))
        lost = []
        for kind, offset, length, bits in ((WRITE, 0, 9 * SECTOR, 0), (WRITE, 7 * SECTOR, 9, FUA), (WRITE, 9 * SECTOR, 700, FUA), (ZEROES, 10 * SECTOR, 5, 0)):
            sent += request(kind, offset, length, bits=bits, data=b"w" * length if kind == WRITE else b"")
            wanted += reply(ENOSPC if offset + length > limit else 0)
            lost += [offset // SECTOR] * (offset + length > limit)
        sent += request(READ, 0, limit) + request(FLUSH)
        wanted += reply(data=b"w" * limit) + reply()
        runner.serve(f"no space, {target}", ["full", "f", "F=rw:F"], sent, wanted, lost, limited, b"NoSpace 1")
