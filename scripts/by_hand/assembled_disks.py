#!/usr/bin/env python3
"""assembled_disks.py: the disks that `assemble --draw-from` makes, made here by Python's zlib and hashlib and by veritysetup.

assembled_disks.py --make SEED TYPE ARCH SECTOR DATA OUT     makes a disk without parity
assembled_disks.py PROGRAM    makes disks by both, compares them, and has them read by sgdisk, sfdisk and veritysetup
"""
import hashlib
import os
import re
import struct
import subprocess
import sys
import tempfile
import uuid
import zlib
from pathlib import Path

TOP = Path(__file__).resolve().parents[2]
MEBIBYTE, BLOCK, ENTRIES = 1 << 20, 4096, 16384
LINUX = uuid.UUID("0fc63daf-8483-4772-8e79-3d69d8477de4")


def kinds():
    text = "".join((TOP / f"crates/partition_commands/src/{it}_types.rt").read_text() for it in ("root", "usr"))
    return {name: uuid.UUID(it) for it, name in re.findall(r'\(\s*"([0-9a-f-]{36})",\s*"([a-z0-9-]+)",?\s*\)', text)}


def derived(salt, name):
    """A UUID of version 8."""
    bytes_of = bytearray(hashlib.sha256(salt + name).digest()[:16])
    bytes_of[6], bytes_of[8] = bytes_of[6] & 15 | 0x80, bytes_of[8] & 63 | 0x80
    return uuid.UUID(bytes=bytes(bytes_of))


def tree_of(data, salt):
    """The root hash, and the levels from the top down."""
    level = [data[at:at + BLOCK] for at in range(0, len(data) // BLOCK * BLOCK, BLOCK)]
    levels = []
    while True:
        digests = [hashlib.sha256(salt + it).digest() for it in level]
        if len(digests) == 1 and levels:
            return digests[0], b"".join(levels)
        level = [b"".join(digests[at:at + 128]).ljust(BLOCK, b"\0") for at in range(0, len(digests), 128)]
        if len(data) // BLOCK == 1:
            return digests[0], b""
        levels.insert(0, b"".join(level))


def image_of(data, salt):
    """The root hash, and the hash image."""
    root, tree = tree_of(data, salt)
    block = struct.pack("<8sII16s32sIIQH6x", b"verity", 1, 1, derived(salt, b"image").bytes, b"sha256", BLOCK, BLOCK, len(data) // BLOCK, len(salt)) + salt
    return root, block.ljust(BLOCK, b"\0") + tree


def aligned(at):
    return -(-at // MEBIBYTE) * MEBIBYTE


def table_of(size, sectors, disk, partitions):
    """The bytes at both ends."""
    array = b"".join(kind.bytes_le + it.bytes_le + struct.pack("<QQQ", first // size, last // size - 1, 0) + label.encode("utf-16-le").ljust(72, b"\0")
                     for kind, it, first, last, label in partitions).ljust(ENTRIES, b"\0")
    ahead = ENTRIES // size

    def header(own, other, entries):
        parts = [b"EFI PART" + struct.pack("<II", 0x10000, 92), bytes(4), struct.pack("<IQQQQ", 0, own, other, 2 + ahead, sectors - 2 - ahead)
                 + disk.bytes_le + struct.pack("<QIII", entries, 128, 128, zlib.crc32(array))]
        parts[1] = struct.pack("<I", zlib.crc32(b"".join(parts)))
        return b"".join(parts).ljust(size, b"\0")

    mbr = bytes(446) + struct.pack("<8sII", b"\0\0\2\0\xee\xff\xff\xff", 1, min(sectors - 1, 2**32 - 1)) + bytes(48) + b"\x55\xaa"
    return mbr.ljust(size, b"\0") + header(1, sectors - 1, 2) + array, array + header(sectors - 1, 1, sectors - 1 - ahead)


def disk_of(seed, kind, size, data, parity=None):
    salt = hashlib.sha256(seed).digest()
    data = data[:len(data) // 512 * 512]
    root, image = image_of(data, salt)
    parts = [(kinds()[kind], uuid.UUID(bytes=root[:16]), data, "data"), (kinds()[kind + "-verity"], uuid.UUID(bytes=root[16:]), image, "hash")]
    if parity is not None:
        parts.append((LINUX, derived(salt, b"parity"), parity, "parity"))
    disk, partitions = bytearray(MEBIBYTE), []
    for of, it, content, label in parts:
        first = len(disk)
        disk += content
        partitions.append((of, it, first, first + len(content), label))
        disk += bytes(aligned(len(disk)) - len(disk))
    disk += bytes(MEBIBYTE)
    front, back = table_of(size, len(disk) // size, derived(salt, b"disk"), partitions)
    disk[:len(front)], disk[len(disk) - len(back):] = front, back
    return root, bytes(disk)


def run(*words):
    return subprocess.run(words, capture_output=True, check=True).stdout.decode()


def parity_of(data, salt, room):
    """veritysetup's parity of two bytes in a codeword."""
    files = [os.path.join(room, it) for it in ("data", "hash", "parity")]
    Path(files[0]).write_bytes(data)
    run("veritysetup", "format", "--salt", salt.hex(), "--uuid", str(derived(salt, b"image")), "--fec-device", files[2], files[0], files[1])
    return Path(files[2]).read_bytes()


def check(program, room, seed, kind, size, data, has_parity):
    salt = hashlib.sha256(seed).digest()
    parity = parity_of(data, salt, room) if has_parity else None
    root, wanted = disk_of(seed, kind, size, data, parity)
    out, source = os.path.join(room, "disk"), os.path.join(room, "source")
    Path(source).write_bytes(data)
    volume, arch = kind.split("-", 1)
    run(program, "assemble", "--type", volume, "--arch", arch, *(["--fec"] if has_parity else []), "--sector-size", str(size), "--draw-from", seed.decode(), out, source)
    same = Path(out).read_bytes() == wanted
    if size == 512:
        assert "No problems found" in run("sgdisk", "-v", out)
        run("sfdisk", "--verify", out)
    stack = run(program, "partitions", "--root", root.hex(), out)
    Path(out + ".stack").write_text(stack)
    read = subprocess.run([program, "cat", out + ".stack", "root", "DISK=ro:" + out], capture_output=True, check=True).stdout
    fec = ["--fec", out + "#parity"] if has_parity else []
    run(program, "verify", *fec, out + "#data", out + "#hash", root.hex())
    os.remove(out)
    return same and read == data[:len(data) // BLOCK * BLOCK]


def main():
    if sys.argv[1:2] == ["--make"]:
        seed, volume, arch, size, data, out = sys.argv[2:]
        root, disk = disk_of(seed.encode(), f"{volume}-{arch}", int(size), Path(data).read_bytes())
        Path(out).write_bytes(disk)
        print(root.hex())
        return
    (program,) = sys.argv[1:]
    failed = 0
    with tempfile.TemporaryDirectory() as room:
        for number, (blocks, kind, size, parity) in enumerate([(1, "root-x86-64", 512, False), (8, "root-x86-64", 512, True), (129, "usr-arm64", 4096, False), (1000, "root-riscv64", 4096, True), (20000, "usr-s390x", 512, True)]):
            data = hashlib.shake_128(bytes([number])).digest(blocks * BLOCK)
            good = check(os.path.realpath(program), room, b"seed %d" % number, kind, size, data, parity)
            print(blocks, kind, size, "same" if good else "DIFFERS")
            failed += not good
    sys.exit(failed)


if __name__ == "__main__":
    main()
