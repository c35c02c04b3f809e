#!/usr/bin/env python3
"""Writes the rows of tests/rows on `crypt` lines; the bytes beneath are OpenSSL's, and hash images veritysetup's.

crypt_rows.py FOLDER: into session_crypt_units, session_crypt_layers, crypt_file and verity_over_crypt of FOLDER.
"""
import hashlib
import os
import pathlib
import re
import subprocess
import sys

sys.dont_write_bytecode = True
sys.path.insert(0, os.path.join(os.path.dirname(os.path.realpath(__file__)), "../lib"))
import openssl_xts

KEY = bytes(range(32))
LONG = bytes(range(100, 164))
LEFT, RIGHT = bytes(range(7, 39)), bytes(range(31, 95))


def line(number, sector):
    same = sector == sector[:1] * 512
    return f"{number} all {sector[:1].hex()}" if same else f"{number} {sector.hex()}"


def shown(first, data):
    return "\n".join(line(first + k, data[512 * k : 512 * (k + 1)]) for k in range(len(data) // 512))


def session(bindings, *lines):
    """Pairs of a line and its reply, as a step."""
    return f"$ dmstack session {bindings}\n" + "".join(f"> {text}\n{reply}\n" for text, reply in lines)


def units():
    steps = ["# The number of a sector's unit is its number within its line and iv_offset, modulo 2^64.\n"]
    data = b"\x5a" * 1024
    for key in (KEY, LONG):
        for offset in (0, 1, 3, 2**63 - 1, 2**63, 2**64 - 1):
            crypt = f"crypt aes-xts-plain64 {key.hex()} {offset} D 0"
            steps.append(
                session(
                    "D=zero:2",
                    (f"load m,,,rw,0 8 zero,8 2 {crypt};p,,,ro,0 2 linear D 0", "loaded 2"),
                    ("write m 8 2 5a", "written"),
                    ("read p 0 2", shown(0, openssl_xts.sectors(key, offset, data))),
                    ("read m 7 3", "7 all 00\n" + shown(8, data)),
                    ("moved", "moved 4 2"),
                )
            )
    steps.append("# The same bytes, read where a linear line wrote them: decryption, and keys in capital digits.\n")
    clear = openssl_xts.sectors(LONG, 41, b"\xc3" * 512 * 3, encrypt=False)
    steps.append(
        session(
            "D=zero:4",
            (f"load c,,,ro,0 3 crypt aes-xts-plain64 {LONG.hex().upper()} 41 D 1;p,,,rw,0 4 linear D 0", "loaded 2"),
            ("write p 1 3 c3", "written"),
            ("read c 0 3", shown(0, clear)),
            ("read c 2 1", shown(2, clear[1024:])),
            ("write c 0 1 00", "refused 4 ReadOnly"),
        )
    )
    return "\n".join(steps)


def layers():
    """A crypt line over chunks of 4 sectors on two crypt lines, each over a leaf."""
    size = 32
    data = b"\x11" * 512 * size
    outer = openssl_xts.sectors(LONG, 9, data)
    chunks = [outer[2048 * k : 2048 * (k + 1)] for k in range(size // 4)]
    left = openssl_xts.sectors(LEFT, 2**64 - 5, b"".join(chunks[0::2]))
    right = openssl_xts.sectors(RIGHT, 1000, b"".join(chunks[1::2]))
    text = (
        f"l,,,rw,0 16 crypt aes-xts-plain64 {LEFT.hex()} {2**64 - 5} A 2;"
        f"r,,,rw,0 16 crypt aes-xts-plain64 {RIGHT.hex()} 1000 B 0;"
        "s,,,rw,0 32 striped 2 4 /dev/mapper/l 0 /dev/mapper/r 0;"
        f"c,,,rw,0 32 crypt aes-xts-plain64 {LONG.hex()} 9 /dev/mapper/s 0;"
        "a,,,ro,0 18 linear A 0;b,,,ro,0 16 linear B 0"
    )
    # then five sectors from the sixth on, in two chunks and the lines beneath
    part = openssl_xts.sectors(LONG, 9 + 6, b"\x22" * 512 * 5)
    outer = outer[: 512 * 6] + part + outer[512 * 11 :]
    chunks = [outer[2048 * k : 2048 * (k + 1)] for k in range(size // 4)]
    left_after = openssl_xts.sectors(LEFT, 2**64 - 5, b"".join(chunks[0::2]))
    right_after = openssl_xts.sectors(RIGHT, 1000, b"".join(chunks[1::2]))
    assert left != left_after and right != right_after
    return "# Encrypted over striped over encrypted devices, and what then stands on the leaves.\n" + session(
        "A=zero:18 B=zero:16",
        (f"load {text}", "loaded 6"),
        ("cost c", "sectors 32 depth 3 read 1 write 1"),
        ("write c 0 32 11", "written"),
        ("read c 0 32", shown(0, data)),
        ("read a 0 18", "0 all 00\n1 all 00\n" + shown(2, left)),
        ("read b 0 16", shown(0, right)),
        ("write c 6 5 22", "written"),
        ("read c 5 7", "5 all 11\n" + shown(6, b"\x22" * 512 * 5) + "\n11 all 11"),
        ("read a 0 18", "0 all 00\n1 all 00\n" + shown(2, left_after)),
        ("read b 0 16", shown(0, right_after)),
        ("moved", f"moved {32 + 18 + 16 + 7 + 18 + 16} {32 + 5}"),
    )


def many(folder):
    """2,048 sectors by `write` from a file, and the content of the image."""
    data = hashlib.shake_128(b"2,048 sectors").digest(512 * 2048)
    image = bytes(512 * 3) + openssl_xts.sectors(LONG, 77, data) + bytes(512 * 5)
    (folder / "before").write_text(
        "# A source of 2,048 sectors, an image of zeros, and the stack.\n"
        "python3 -c \"import hashlib, sys; sys.stdout.buffer.write(hashlib.shake_128(b'2,048 sectors').digest(512 * 2048))\" > source\n"
        "truncate -s $((512 * 2056)) image\n"
        f"echo 'c,,,rw,0 2048 crypt aes-xts-plain64 {LONG.hex()} 77 I 3' > stack\n"
    )
    sums = hashlib.sha256(image).hexdigest()
    back = hashlib.sha256("".join(line(k, data[512 * k : 512 * (k + 1)]) + "\n" for k in range(2048)).encode()).hexdigest()
    return (
        "# The largest write, through a crypt line onto a file; what stands there is OpenSSL's, and reads back.\n"
        "$ dmstack write stack c 0 source I=rw:image\nwritten\n"
        f"$ sha256sum < image\n{sums}  -\n"
        f"$ dmstack read stack c 0 2048 I=rw:image | sha256sum\n{back}  -\n"
        "$ dmstack load stack I=ro:image\nrefused 13 LowerReadOnly device 1 line 1\nstatus 1\n"
    )


def verified(folder):
    """A verity line over a crypt line over stripes; the hash image is that of the decrypted data."""
    count, size, number, salt = 20, 1024, 2**64 - 6, bytes(range(32))
    blocks = [bytes([k + 1]) * size for k in range(count)]
    encrypted = openssl_xts.sectors(LONG, number, b"".join(blocks))
    chunks = [encrypted[2048 * k : 2048 * (k + 1)] for k in range(len(encrypted) // 2048)]
    files = folder / "files"
    files.mkdir(exist_ok=True)
    clear = files / "clear"
    clear.write_bytes(b"".join(blocks))
    (files / "left").write_bytes(b"".join(chunks[0::2]))
    (files / "right").write_bytes(b"".join(chunks[1::2]))
    (files / "hash").unlink(missing_ok=True)
    words = ["--salt", salt.hex(), "--uuid", "6c0b2c0e-5a0d-4b5c-9a44-1d1f6a3b2c7e", "--data-block-size", str(size)]
    command = ["/usr/sbin/veritysetup", "format", *words, "--hash-block-size", "512", clear, files / "hash"]
    said = subprocess.run(command, check=True, capture_output=True, text=True).stdout
    root = re.search(r"Root hash:\s*([0-9a-f]{64})", said)[1]
    clear.unlink()
    (folder / "before").write_text(
        "# One bit of the encrypted data in the second stripe is changed: in sector 13 of the data, so in block 6.\n"
        "cp right changed\n"
        f"printf '\\{(chunks[3][512] ^ 1):03o}' | dd of=changed bs=1 seek=$((2048 + 512)) conv=notrunc status=none\n"
        "# And one of the hash block beneath the root: of the digests of blocks 16 to 19.\n"
        "cp hash changed.hash\n"
        f"printf '\\{((files / 'hash').read_bytes()[512 * 3 + 40] ^ 1):03o}' | dd of=changed.hash bs=1 seek=$((512 * 3 + 40)) conv=notrunc status=none\n"
        f"crypt='crypt aes-xts-plain64 {LONG.hex()}'\n"
        "echo \"s,,,ro,0 40 striped 2 4 A 0 B 0;c,,,ro,0 40 $crypt NUMBER /dev/mapper/s 0;\n"
        f"v,,,ro,0 40 verity 1 /dev/mapper/c H {size} 512 {count} 1 sha256 {root} {salt.hex()}\" > text\n"
        f"sed 's/NUMBER/{number}/' text > stack\n"
        f"sed 's/NUMBER/{number + 1}/' text > other\n"
    )
    whole = lambda first, last: "".join(f"{k} all {k // 2 + 1:02x}\n" for k in range(first, last))
    read = lambda stack, first, n, right="right", hash="hash": (
        f"$ dmstack read --cache 0 {stack} v {first} {n} A=ro:left B=ro:{right} H=ro:{hash}\n"
    )
    lost = "fault 2 Mismatch\nstatus 3\n"
    return "\n".join(
        [
            "# A verity line over a crypt line over stripes; the hash image is veritysetup's of the decrypted data.\n"
            + read("stack", 0, 40) + whole(0, 40)
            + "$ dmstack load stack A=ro:left B=ro:right H=ro:hash\n"
            + "s sectors 40 depth 1 read 1 write 1 ro\nc sectors 40 depth 2 read 1 write 1 ro\nv sectors 40 depth 3 read 4 write 0 ro\n",
            "# A bit of the encrypted bytes is changed: its block is not served, and those beside it are.\n"
            + read("stack", 8, 4, "changed") + whole(8, 12)
            + read("stack", 12, 1, "changed") + lost + read("stack", 13, 1, "changed") + lost + read("stack", 0, 40, "changed") + lost
            + read("stack", 14, 26, "changed") + whole(14, 40),
            "# The blocks whose digests stand in a changed hash block are not served.\n"
            + read("stack", 0, 32, "right", "changed.hash") + whole(0, 32)
            + "".join(read("stack", k, 1, "right", "changed.hash") + lost for k in (32, 35, 36, 39)),
            "# Under other unit numbers no block is the one that was formatted, though the line beneath answers bytes.\n"
            + "".join(read("other", k, 1) + lost for k in (0, 5, 39))
            + "$ dmstack read --cache 0 other c 0 1 A=ro:left B=ro:right H=ro:hash | cut -c 1-34\n"
            + f"0 {openssl_xts.unit(LONG, number + 1, encrypted[:512], False).hex()[:32]}\n",
        ]
    )


top = pathlib.Path(sys.argv[1])
for name, text in (("session_crypt_units", units), ("session_crypt_layers", layers)):
    (top / name).mkdir(exist_ok=True)
    (top / name / "steps").write_text(text())
(top / "crypt_file").mkdir(exist_ok=True)
(top / "crypt_file" / "steps").write_text(many(top / "crypt_file"))
(top / "verity_over_crypt").mkdir(exist_ok=True)
(top / "verity_over_crypt" / "steps").write_text(verified(top / "verity_over_crypt"))
