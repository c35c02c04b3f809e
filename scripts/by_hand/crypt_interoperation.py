#!/usr/bin/env python3
"""Compares `crypt` lines with OpenSSL's AES-XTS, both ways, over files: random keys, offsets, ranges and bytes.

crypt_interoperation.py [RUNS [SEED]]: 24 runs by default, which take units of 512, 1,024, 2,048 and 4,096 bytes in turn,
without and with `iv_large_sectors`. It needs the built program and OpenSSL's libcrypto.
"""
import os
import pathlib
import random
import subprocess
import sys
import tempfile

sys.dont_write_bytecode = True
sys.path.insert(0, os.path.join(os.path.dirname(os.path.realpath(__file__)), "../lib"))
import openssl_xts

TOP = pathlib.Path(__file__).resolve().parents[2]
PROGRAM = TOP / "crates/dmstack/out/dmstack"


def dmstack(folder, *words, status=0):
    run = subprocess.run([PROGRAM, *words], cwd=folder, capture_output=True, text=True)
    assert run.returncode == status and not run.stderr, (words, run.returncode, run.stdout[:200], run.stderr[:200])
    return run.stdout


def shown(text):
    """The bytes of printed sectors."""
    sectors = []
    for row in text.splitlines():
        words = row.split()
        sectors.append(bytes.fromhex(words[2]) * 512 if words[1] == "all" else bytes.fromhex(words[1]))
    return b"".join(sectors)


def units(line, first, data, encrypt):
    """Whole units of a line, from its sector `first` on, by OpenSSL."""
    key, iv_offset, sectors, large = line
    size, out = 512 * sectors, []
    for k in range(0, len(data) // 512, sectors):
        number = (first + k + iv_offset) % 2**64
        number = number // sectors if large else number
        out.append(openssl_xts.unit(key, number, data[512 * k : 512 * k + size], encrypt))
    return b"".join(out)


def run(draw, folder, sectors, large):
    key = draw.randbytes(draw.choice((32, 64)))
    iv_offset = draw.choice((0, 8, 2**32 - 8, 2**63, 2**64 - 8, draw.randrange(2**64 // sectors) * sectors))
    if sectors == 1:
        iv_offset = draw.choice((1, 2**32 - 3, 2**64 - 7, iv_offset))
    offset, length = draw.randrange(50), draw.randrange(1, 700 // sectors) * sectors
    image = draw.randbytes(512 * (offset + length + draw.randrange(9)))
    (folder / "image").write_bytes(image)
    words = [f"sector_size:{512 * sectors}"] * (sectors > 1 or draw.random() < 0.5) + ["iv_large_sectors"] * large
    options = " ".join(["", str(len(words)), *words] if words else [])
    text = f"c,,,rw,0 {length} crypt aes-xts-plain64 {key.hex()} {iv_offset} I {offset}{options}\n"
    (folder / "stack").write_text(text)
    line = (key, iv_offset, sectors, large)
    first = draw.randrange(length)
    count = draw.randrange(1, length - first + 1)
    # the units touched, their place in the image, and the place of what is asked for in them
    begin = first // sectors * sectors
    end = -(-(first + count) // sectors) * sectors
    place, within = 512 * (offset + begin), 512 * (first - begin)
    # the content, read
    there = image[place : place + 512 * (end - begin)]
    clear = units(line, begin, there, encrypt=False)
    read = shown(dmstack(folder, "read", "stack", "c", str(first), str(count), "I=rw:image"))
    assert read == clear[within : within + 512 * count], text
    # what is written there, seen in the image
    source = draw.randbytes(512 * count)
    (folder / "source").write_bytes(source)
    assert dmstack(folder, "write", "stack", "c", str(first), "source", "I=rw:image") == "written\n"
    put = units(line, begin, clear[:within] + source + clear[within + len(source) :], encrypt=True)
    assert (folder / "image").read_bytes() == image[:place] + put + image[place + len(put) :], text


def main():
    runs = int(sys.argv[1]) if len(sys.argv) > 1 else 24
    draw = random.Random(int(sys.argv[2]) if len(sys.argv) > 2 else 1)
    with tempfile.TemporaryDirectory() as folder:
        for k in range(runs):
            run(draw, pathlib.Path(folder), (1, 2, 4, 8)[k % 4], k // 4 % 2 == 1)
    print(f"crypt lines agree with OpenSSL: {runs} runs")


main()
