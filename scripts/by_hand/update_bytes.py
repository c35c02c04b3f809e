#!/usr/bin/env python3
"""How many bytes `update` fetches if a file of 5 KB is added to an image, beside what zsync would fetch.

update_bytes.py PROGRAM [KIND..]: makes images of about 32 MiB by mkfs.ext4, mkfs.erofs and mksquashfs, as far as they are installed,
of files that are half text and half random bytes, without and with the new file; for `written`, debugfs writes the file into the
ext4 image that is there. Block sizes of 4,096 bytes, one salt. `update` is what the program prints, hash blocks among them. `zsync N`
are the blocks of N bytes of the new image that are at no byte offset of the old one, by a rolling checksum; the checksums that zsync
fetches too aren't counted.
"""
import json
import os
import random
import shutil
import subprocess
import sys
import tempfile
from itertools import accumulate, chain, islice, tee
from operator import sub

UUID = "6c0b2c0e-5a0d-4b5c-9a44-1d1f6a3b2c7e"
TIME = "1700000000"
MEBIBYTE = 1 << 20
ZSYNC = (4096, 2048)
NEW = "folder5/file100b"
EXT4 = ["mkfs.ext4", "-q", "-F", "-b", "4096", "-U", UUID, "-E", f"hash_seed={UUID}", "-d", "files", "image", "32M"]
# The mebibytes of files of which an image has about 32 MiB, and the command that makes it of the folder `files`.
KINDS = {
    "written": (24, EXT4),
    "ext4": (24, EXT4),
    "erofs": (31, ["mkfs.erofs", "-U", UUID, "-T", TIME, "image", "files"]),
    "squashfs": (47, ["mksquashfs", "files", "image", "-quiet", "-no-progress", "-noappend", "-all-root", "-all-time", TIME, "-mkfs-time", TIME]),
}


def write(path, content):
    os.makedirs(os.path.dirname(path), exist_ok=True)
    with open(path, "wb") as it:
        it.write(content)
    os.utime(path, (int(TIME), int(TIME)))


def make_files(mebibytes):
    """Files in twelve folders, half of them text, of a few bytes to a mebibyte."""
    dice, left, number = random.Random(1), mebibytes * MEBIBYTE, 0
    words = [dice.randbytes(dice.randint(2, 9)).hex() for _ in range(3000)]
    while left > 0:
        size = min(left, int(2 ** dice.uniform(8, 20)))
        text = " ".join(dice.choices(words, k=size // 8 + 1)).encode()[:size]
        write(f"files/folder{number % 12}/file{number}", text if number % 2 else dice.randbytes(size))
        left, number = left - size, number + 1


def made(command):
    """The image of the files."""
    if command[0] != "debugfs" and os.path.exists("image"):
        os.remove("image")
    for folder, _, _ in os.walk("files"):
        os.utime(folder, (int(TIME), int(TIME)))
    subprocess.run(command, check=True, stdout=subprocess.DEVNULL, stderr=subprocess.DEVNULL, env={**os.environ, "E2FSPROGS_FAKE_TIME": TIME})
    with open("image", "rb") as it:
        content = it.read()
    return content.ljust(-(-len(content) // 4096) * 4096, b"\0")


def sums(block):
    """The sum of the bytes, and the sum of these sums."""
    return sum(block), sum(accumulate(block))


def rolled(content, size):
    """The sums of the blocks of that size at each byte offset, each from the one before."""
    first, second = sums(content[:size])
    plain, ahead = tee(accumulate(chain([first], map(sub, content[size:], content))))
    return zip(plain, accumulate(chain([second], map(sub, islice(ahead, 1, None), map(size.__mul__, content)))))


def fetched_by_zsync(old, new, size):
    """The bytes of the blocks of the new image that are nowhere in the old one."""
    blocks = [new[at:at + size] for at in range(0, len(new), size)]
    wanted = {sums(it): set() for it in blocks}
    for at, key in enumerate(rolled(old, size)):
        if key in wanted:
            wanted[key].add(old[at:at + size])
    return size * sum(it not in wanted[sums(it)] for it in blocks)


def fetched_by_update(program, old, new):
    """What is printed of an update from one image to the other, which must end with it."""
    for name, content in (("old", old), ("new", new)):
        with open(name, "wb") as it:
            it.write(content)
        words = ["format", "--grow", "--salt", "5a", "--uuid", UUID, "--pin", f"{name}.pin", name, f"{name}.tree"]
        subprocess.run([program, *words], check=True, stdout=subprocess.DEVNULL)
    words = ["update", "--json", "--pin", "new.pin", "old", "old.tree", "new", "new.tree"]
    run = subprocess.run([program, *words], check=True, stdout=subprocess.PIPE)
    for name in ("", ".tree"):
        with open(f"old{name}", "rb") as one, open(f"new{name}", "rb") as other:
            if one.read()[:os.path.getsize(f"new{name}")] != other.read():
                raise ValueError("the update ends with another image")
    for name in ("old", "new", "old.tree", "new.tree"):
        os.remove(name)
    return json.loads(run.stdout)["fetched_bytes"]


def check_sums():
    """The rolling sums are those of each block."""
    content = random.Random(2).randbytes(700)
    if list(rolled(content, 64)) != [sums(content[at:at + 64]) for at in range(len(content) - 63)]:
        raise ValueError("other sums")


def main():
    program = os.path.abspath(sys.argv[1])
    check_sums()
    print(f"{'':10}{'bytes':>10}{'update':>10}" + "".join(f"{f'zsync {it}':>12}" for it in ZSYNC))
    for kind, (mebibytes, command) in KINDS.items():
        if sys.argv[2:] and kind not in sys.argv[2:]:
            continue
        if not shutil.which(command[0], path=os.environ["PATH"] + ":/usr/sbin:/sbin"):
            print(f"{kind:10}{command[0]} isn't installed")
            continue
        with tempfile.TemporaryDirectory() as room:
            os.chdir(room)
            make_files(mebibytes)
            old = made(command)
            write(f"files/{NEW}", random.Random(3).randbytes(5000))
            new = made(["debugfs", "-w", "-R", f"write files/{NEW} {NEW}", "image"] if kind == "written" else command)
            row = [len(new), fetched_by_update(program, old, new), *(fetched_by_zsync(old, new, it) for it in ZSYNC)]
            print(f"{kind:10}" + "".join(f"{it:>{width}}" for it, width in zip(row, (10, 10, 12, 12))), flush=True)
            os.chdir("/")


if __name__ == "__main__":
    sys.exit(main())
