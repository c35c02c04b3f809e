#!/usr/bin/env python3
"""Tries `dmstack repair --fec`, and reads with parity, on images with parity that veritysetup made and that are damaged at random.

repaired_images.py [--cases N] [--seed S] [PROGRAM]: formats images by veritysetup, with 2 to 24 bytes of parity in a codeword,
damages blocks of the data, of the tree and of the parity, and repairs them. If data are damaged, those blocks must be restored whose round
has no more corrupt blocks than a codeword has bytes of parity, and undamaged parity, and those whose wrong bytes the model corrects; if
only the tree is, all of it. No block may hold
other bytes than the formatted ones or the damaged ones, --check may change none, and what ends with the status 0 veritysetup must
verify, its parity too. Before that `cat` reads the data with the line of `table --fec`: no other byte than the formatted ones, and all
of them, if of no round more blocks are corrupt than a codeword has bytes of parity, none of them beneath another one, and no parity; so do
`copy` and a client of `nbd`. Where veritysetup isn't installed it says so, and tries nothing (Debian: cryptsetup-bin).
"""
import argparse
import os
import re
import shutil
import subprocess
import sys
import tempfile
from struct import pack

sys.dont_write_bytecode = True
HERE = os.path.dirname(os.path.realpath(__file__))
sys.path[:0] = [f"{HERE}/../lib", f"{HERE}/../model"]

from checks import Checks, add_cases, random_cases  # noqa: E402
from parity import corrected, covered  # noqa: E402
from verity import Tree  # noqa: E402

LEAVES = ["D=ro:data", "H=ro:hash", "P=ro:parity"]
CHECKS = Checks()
say = CHECKS.count


def run(*words):
    done = subprocess.run([str(it) for it in words], capture_output=True, timeout=120)
    return done.returncode, done.stdout.decode()


class Image:
    """An image that veritysetup formatted, and the bytes of its three files."""

    def __init__(self, dice):
        self.block, self.roots = dice.choice([512, 1024, 2048, 4096]), dice.randint(2, 24)
        self.blocks = dice.choice([dice.randint(2, 40), dice.randint(200, 300), dice.randint(400, 700)])
        few = [bytes(self.block), dice.randbytes(self.block)]
        pieces = [dice.choice(few) if dice.random() < 0.2 else dice.randbytes(self.block) for _ in range(self.blocks)]
        write("data", b"".join(pieces))
        area = self.blocks // (self.block // 32 - 1) + 8
        write("hash", bytes((area + dice.choice([0, 0, 5])) * self.block))
        write("parity", b"")
        sizes = [f"--data-block-size={self.block}", f"--hash-block-size={self.block}"]
        self.fec = ["--fec-device=parity", f"--fec-roots={self.roots}"]
        made = run(VERITYSETUP, "format", *sizes, f"--salt={dice.randbytes(8).hex()}", *self.fec, "data", "hash")[1]
        self.root = re.search("Root hash: *\t*([0-9a-f]{64})", made)[1]
        self.files = {name: read(name) for name in ("data", "hash", "parity")}
        self.covered = self.blocks + len(self.files["hash"]) // self.block - 1
        self.rounds = -(-self.covered // (255 - self.roots))

    def blocks_of(self, name, content):
        size = self.block * self.roots if name == "parity" else self.block
        return [content[at:at + size] for at in range(0, len(content), size)]

    def damage(self, dice, name, places):
        """Changes bytes of these blocks, of the parity those of these rounds."""
        blocks = self.blocks_of(name, self.files[name])
        for place in places:
            changed = bytearray(blocks[place])
            for at in dice.sample(range(len(changed)), dice.choice([1, 1, 30])):
                changed[at] ^= dice.randint(1, 255)
            blocks[place] = dice.randbytes(len(changed)) if dice.random() < 0.2 else bytes(changed)
        write(name, b"".join(blocks))


def read(name):
    with open(name, "rb") as file:
        return file.read()


def write(name, content):
    with open(name, "wb") as file:
        file.write(content)


def picked(dice, image):
    """The data blocks that are damaged: about as many of a round as it has parity, or a run, or none."""
    kind, count = dice.random(), image.blocks
    if kind < 0.2:
        return []
    if kind < 0.4:
        first = dice.randrange(count)
        return list(range(first, min(count, first + dice.randint(1, image.rounds * image.roots + 1))))
    found = []
    for turn in dice.sample(range(image.rounds), dice.randint(1, image.rounds)):
        members = range(turn, count, image.rounds)
        found += dice.sample(members, min(len(members), dice.choice([1, 2, image.roots, image.roots + 1])))
    return found


def comes_back(image, bad, turns, before, writes):
    """The corrupt data blocks that parity restores if the tree is undamaged, one after another."""
    counts = [sum(it % image.rounds == turn for it in bad) for turn in range(image.rounds)]
    area, found = bytearray(covered(before["data"], before["hash"], image.block, image.blocks, 1)), []
    for it in sorted(bad):
        part = slice(it * image.block, (it + 1) * image.block)
        good = image.files["data"][part]
        is_lost = counts[it % image.rounds] > image.roots or it % image.rounds in turns
        if is_lost and corrected(area, image.block, image.roots, before["parity"], bad, it) != good:
            continue
        found.append(it)
        if writes:
            area[part] = good
    return [f"data {it} parity" for it in found]


def one_of_each(dice, image):
    """At most one covered block of each round: those of the data, and those of the file of the tree."""
    files = [("data", it) for it in range(image.blocks)] + [("hash", 1 + it) for it in range(image.covered - image.blocks)]
    found = {"data": [], "hash": []}
    for turn in range(image.rounds):
        members = files[turn::image.rounds]
        of_tree = [it for it in members if it[0] == "hash"]
        name, place = dice.choice(of_tree if of_tree and dice.random() < 0.5 else members)
        if dice.random() < 0.9:
            found[name].append(place)
    return found


def up_to_roots(dice, image):
    """At most as many blocks of each round as a codeword has bytes of parity, data and tree, none of them beneath another one."""
    tree = Tree(image.block, image.block, image.blocks, 1)
    paths = {("data", it): tree.way(it) for it in range(image.blocks)}
    paths.update({("hash", it): tree.way_to_hash_block(it) for it in range(1, 1 + sum(tree.levels))})
    members, picked_blocks = list(paths), set()
    for turn in range(image.rounds):
        of_round = members[turn::image.rounds]
        picked_blocks.update(dice.sample(of_round, min(len(of_round), dice.choice([0, 1, 2, image.roots, image.roots]))))
    lowest = [it for it in picked_blocks if not any(("hash", place) in picked_blocks for place, _ in paths[it])]
    return {name: sorted(place for kind, place in lowest if kind == name) for name in ("data", "hash")}


def read_with_parity(image):
    """The status of `cat` with the line of `table --fec`, and what it prints."""
    table = [PROGRAM, "table", "--fec", "P", "--fec-roots", image.roots, "--name", "v", "hash", image.root, "D", "H"]
    write("stack", run(*table)[1].encode())
    done = subprocess.run([PROGRAM, "cat", "stack", "v", *LEAVES], capture_output=True, timeout=120)
    return done.returncode, done.stdout


def copied(size):
    """The status of `copy` with that line, and what it writes."""
    write("out", bytes(size))
    return run(PROGRAM, "copy", "stack", "v", "out", *LEAVES)[0], read("out")


def served(size):
    """The status of `nbd` with that line, and the bytes of the reply to a client that reads all."""
    asked = [pack(">IHHQQI", 0x25609513, 0, kind, 7, 0, length) for kind, length in ((0, size), (2, 0))]
    sent = pack(">I", 3) + b"IHAVEOPT" + pack(">II", 1, 1) + b"v" + b"".join(asked)
    done = subprocess.run([PROGRAM, "nbd", "stack", "v", *LEAVES], input=sent, capture_output=True, timeout=120)
    return done.returncode, done.stdout[-size:]


def tried_read(dice, label):
    for damaged in (one_of_each, up_to_roots):
        image = Image(dice)
        for name, places in damaged(dice, image).items():
            image.damage(dice, name, places)
        data = image.files["data"]
        ends = {"cat": read_with_parity(image), "copy": copied(len(data)), "nbd": served(len(data))}
        for command, (status, found) in ends.items():
            say(f"{label}: {command} reads all data", status == 0 and found == data, f"status {status}")


def tried(dice, label):
    image = Image(dice)
    bad = picked(dice, image)
    tree = [1 + k for k in range(len(image.files["hash"]) // image.block - 1)] if dice.random() < 0.4 else []
    tree = dice.sample(tree, min(len(tree), dice.choice([1, 1, 2, 4])))
    turns = dice.sample(range(image.rounds), 1) if dice.random() < 0.2 else []
    for name, places in (("data", bad), ("hash", tree), ("parity", turns)):
        image.damage(dice, name, places)
    before = {name: read(name) for name in image.files}
    say(f"{label}: no other data are read", image.files["data"].startswith(read_with_parity(image)[1]))
    words = [PROGRAM, "repair", "--fec", "parity", "--fec-roots", image.roots]
    looked = run(*words, "--check", "data", "hash", image.root)
    say(f"{label}: --check changes nothing", all(read(name) == before[name] for name in before))
    status, printed = run(*words, "data", "hash", image.root)
    after = {name: read(name) for name in before}
    judge(label, image, before, after, status)
    if not tree:
        wanted, named = (comes_back(image, bad, turns, before, it) for it in (True, False))
        say(f"{label}: {len(wanted)} of {len(bad)} blocks are restored", told(printed, "repaired") == wanted, printed)
        say(f"{label}: --check names them", told(looked[1], "repairable") == named, looked[1])
        say(f"{label}: the status", status == (0 if len(wanted) == len(bad) else 3), str(status))
    elif not bad:
        say(f"{label}: the tree is reconstructed", status == 0, printed)


def told(printed, word):
    return [line.removeprefix(word + " ") for line in printed.splitlines() if line.startswith(word + " ")]


def judge(label, image, before, after, status):
    for name in ("data", "hash"):
        rows = zip(*(image.blocks_of(name, it[name]) for it in (image.files, before, after)))
        say(f"{label}: {name} has formatted and damaged blocks alone", all(now in (good, old) for good, old, now in rows))
    say(f"{label}: the parity stays", after["parity"] == before["parity"])
    if status == 0:
        say(f"{label}: veritysetup verifies it", run(VERITYSETUP, "verify", "data", "hash", image.root)[0] == 0)
        used = len(image.files["hash"])
        if after["parity"] == image.files["parity"] and after["hash"][:used] == image.files["hash"]:
            say(f"{label}: with its parity", run(VERITYSETUP, "verify", *image.fec, "data", "hash", image.root)[0] == 0)


def main():
    if not VERITYSETUP:
        print("veritysetup isn't installed")
        return 0
    for _, dice, label in random_cases(WORDS):
        tried(dice, label)
        tried_read(dice, label)
    return CHECKS.end("repaired images")


if __name__ == "__main__":
    parser = argparse.ArgumentParser()
    add_cases(parser, 40)
    parser.add_argument("program", nargs="?", default=shutil.which("dmstack"))
    WORDS = parser.parse_args()
    PROGRAM = os.path.abspath(WORDS.program)
    VERITYSETUP = shutil.which("veritysetup", path=os.environ.get("PATH", "") + ":/usr/sbin")
    with tempfile.TemporaryDirectory() as room:
        os.chdir(room)
        sys.exit(main())
