#!/usr/bin/env python3
"""Kills updates of verity images at each call that changes a file, in turn, and runs each of them again.

cut_updates.py PROGRAM: older, longer, damaged and missing images, and parts of a disk, are brought to a release. After each cut each
block must be as it was or as the release has it, and all else as it was. HASH has its old superblock only if no block is changed yet,
and that of the release only if all blocks are the release's; otherwise it has none. Run again, the update must end with the release,
and fetch only the blocks that were missing, or take them from another copy, or from DATA if HASH still has its old superblock. The zeros over the old superblock must be synced before a block is written, also
those of an update that was killed, and all blocks before the new superblock is. Whole files that are longer are shortened last, when the
new superblock is synced.
"""
import os
import random
import re
import sys
import tempfile

sys.dont_write_bytecode = True
HERE = os.path.dirname(os.path.realpath(__file__))
sys.path[:0] = [f"{HERE}/../lib", f"{HERE}/../model"]
from cut_calls import MOST, Cutter, Unlike  # noqa: E402
from pins import Pin  # noqa: E402
from repaired_images import read, write  # noqa: E402
from stack import SECTOR  # noqa: E402
from verity import Tree, format_images  # noqa: E402

SALT = bytes.fromhex("abcd")
NOTHING = bytes(SECTOR)
BLOCKS = 270
WHOLE = (0, None), (0, None)


class Image:
    """Data of so many blocks, with other bytes in each block of `changed`, and their superblock and tree; without the blocks `out`."""

    def __init__(self, sizes, blocks, changed=(), salt=SALT, out=()):
        self.sizes, dice, other = sizes, random.Random(1), random.Random(2)
        content = [dice.randbytes(sizes[0]) for _ in range(blocks)]
        for block in changed:
            content[block] = other.randbytes(sizes[0])
        content = [it for block, it in enumerate(content) if block not in out]
        self.data, hashes = b"".join(content), bytearray()
        self.root, self.blocks = format_images(self.data, hashes, (*sizes, None, salt), bytes([len(changed)] * 16), True)
        self.hash = bytes(hashes)

    def pin(self):
        return Pin(self.root, SALT, *self.sizes, self.blocks).text()


class Update:
    """An update of the images in these files, each whole or a part of a file, with other words after the release's."""

    def __init__(self, name, release, files, words=("data", "hash"), places=WHOLE, copies=(), moved=0, seeded=0):
        self.name, self.release, self.files, self.moved, self.seeded = name, release, files, moved, seeded
        self.last_copy = len(copies) // 2 + 1
        self.paths = [it.partition("@")[0] for it in words]
        self.parts = places
        self.words = ["update", "--pin", "pin", *words, "new.data", "new.hash", *copies]
        self.wanted = {path: bytearray(files.get(path, b"")) for path in self.paths}
        for path, (first, _), content in zip(self.paths, places, (release.data, release.hash)):
            it = self.wanted[path]
            it.extend(bytes(max(0, first + len(content) - len(it))))
            it[first:first + len(content)] = content
            if places == WHOLE:
                del it[len(content):]

    def prepare(self):
        for path in self.paths:
            if os.path.exists(path):
                os.remove(path)
        for path, content in self.files.items():
            write(path, content)

    def views(self):
        """Of the data and of the hashes what was there, what is there, and what is wanted, each as long as what is wanted."""
        for path, (first, size) in zip(self.paths, self.parts):
            wanted = self.wanted[path][first:None if size is None else first + size]
            part = slice(first, first + len(wanted))
            left = read(path) if os.path.exists(path) else b""
            yield [it[part].ljust(len(wanted), b"\0") for it in (self.files.get(path, b""), left)] + [wanted]

    def look(self):
        """Checks what a run left, and returns how many data and hash blocks aren't the release's."""
        missing, changed = [0, 0], 0
        for at, (before, left, wanted) in enumerate(self.views()):
            size = self.release.sizes[at]
            for first in range(at * size, len(wanted), size):
                part = slice(first, first + size)
                if left[part] not in (before[part], wanted[part]):
                    raise Unlike(f"block {first // size} of {self.paths[at]}")
                missing[at] += left[part] != wanted[part]
                changed += left[part] != before[part]
            if at and left[SECTOR:size] not in (before[SECTOR:size], wanted[SECTOR:size]):
                raise Unlike("the rest of hash block 0 is neither as it was nor as wanted")
        old, first, new = (it[:SECTOR] for it in (before, left, wanted))
        if first not in (old, new, NOTHING):
            raise Unlike("another superblock")
        is_old = first == old and (not changed or not old.startswith(b"verity"))
        if first != NOTHING and not is_old and (first != new or any(missing)):
            raise Unlike("the superblock is before blocks that aren't its own")
        if self.look_beside() and (first != new or any(missing)):
            raise Unlike("a file is shortened before it holds the release")
        return missing

    def look_beside(self):
        """Checks the bytes beside the parts, and the lengths of whole files: as they were, or as long as is wanted. Returns whether one is
        shorter than it was."""
        is_shortened = False
        for path, (first, size) in zip(self.paths, self.parts):
            before, left = self.files.get(path, b""), read(path) if os.path.exists(path) else b""
            if len(left) not in (len(before), len(self.wanted[path])):
                raise Unlike(f"{path} has another length")
            is_shortened = is_shortened or len(left) < len(before)
            end = len(self.wanted[path])
            if left[end:] != before[end:len(left)]:
                raise Unlike(f"bytes after the release in {path}")
            if size is not None:
                within = [(part, part + count) for part, count in self.parts]
                for at, pair in enumerate(zip(before, left)):
                    if pair[0] != pair[1] and not any(begin <= at < end for begin, end in within):
                        raise Unlike(f"byte {at} of {path}")
        return is_shortened

    def has_superblock(self):
        """Whether HASH has a superblock by which its blocks are listed."""
        path, (first, _) = self.paths[1], self.parts[1]
        return os.path.exists(path) and read(path)[first:].startswith(b"verity")

    def end(self, cutter, missing):
        """Runs the update to its end, which fetches the missing blocks, or takes them from DATA or a copy. Returns how many it copied within
        DATA, and how many data blocks came from the first copy."""
        is_listed = self.has_superblock()
        status, output, _ = cutter.run(self.words)
        tree = Tree(*self.release.sizes, self.release.blocks, 1)
        blocks = self.release.blocks + sum(tree.levels)
        moved = len(re.findall(rb"^moved data ", output, re.M))
        fetched = [len(re.findall(rb"^repaired %s [ 0-9]+ copy %d$" % (kind, self.last_copy), output, re.M)) for kind in (b"data", b"hash")]
        line = b"kept %d moved %d fetched %d bytes %d\n" % (
            blocks - sum(missing), sum(missing) - sum(fetched), sum(fetched), sum(map(int.__mul__, fetched, self.release.sizes)))
        if status or not output.endswith(line) or moved and not is_listed:
            raise Unlike(f"run again, it ends with the status {status}, {output[-200:]} and not {line}")
        for path, content in self.wanted.items():
            if read(path) != content:
                raise Unlike(f"run again, it leaves another {path}")
        return moved, len(re.findall(rb"^repaired data \d+ copy 1$", output, re.M))

    def check_syncs(self, calls):
        """What is written before the superblock is cleared, before it is written, and before a file is shortened, is synced, as are HASH if
        it has none, and shortened files."""
        changes = [it for it in calls if it[0] in ("write", "sync", "resize")]
        writes = [at for at, (call, _) in enumerate(changes) if call == "write"]
        dirty, hashes = set(), self.paths[1]
        is_cleared = self.files.get(hashes, b"")[self.parts[1][0]:].startswith(b"verity")
        for at, (call, path) in enumerate(changes):
            if at == writes[-1] and path != hashes:
                raise Unlike("the last write isn't the superblock's")
            if dirty and (at == writes[-1] or is_cleared and at == writes[1]):
                raise Unlike(f"{dirty} aren't synced before change {at}, a write of {path}")
            is_last = call == "resize" and at > writes[-1]
            if is_last and dirty:
                raise Unlike(f"{dirty} aren't synced before {path} is shortened")
            if call == "sync":
                dirty = dirty - {path}
            elif call == "write" or is_last:
                dirty = dirty | {path}
        if dirty:
            raise Unlike(f"{dirty} aren't synced in the end")
        if not is_cleared and ("sync", hashes) not in changes[: writes[0]]:
            raise Unlike("zeros that a killed update may have left aren't synced")

    def cut_at_each(self, cutter):
        """An update that is killed at each of its calls, and run again. Returns how many there were."""
        calls = []
        self.prepare()
        moved, seeded = self.end(cutter, self.look())
        if moved < self.moved or seeded < self.seeded:
            raise Unlike(f"{moved} blocks are copied within DATA and {seeded} from the first copy, and not {self.moved} and {self.seeded}")
        for _, call, path in cutter.cuts(self.words, "change", self.prepare):
            calls.append((call, os.path.basename(path)))
            self.end(cutter, self.look())
        self.check_syncs(calls)
        return len(calls)

    def cut_again(self, cutter):
        """An update that is killed at its first call, then at its second one, and so on, until it isn't. Returns how often it was."""
        self.prepare()
        for number in range(1, MOST):
            if cutter.run(self.words, "change", number)[2] is None:
                self.end(cutter, [0, 0])
                return number - 1
            self.look()
        raise Unlike("it doesn't come to its end")


def updates():
    release = Image((512, 512), BLOCKS)
    changed = [0, 1, 16, 17, 100, 101, 102, BLOCKS - 1]
    old, short, long = Image((512, 512), BLOCKS, changed), Image((512, 512), 240), Image((512, 512), 300, changed)
    yield Update("older", release, {"data": old.data, "hash": old.hash})
    yield Update("shorter", release, {"data": short.data, "hash": short.hash})
    yield Update("longer", release, {"data": long.data + b"rest", "hash": long.hash + b"rest"})
    out = Image((512, 512), BLOCKS, out=(20, 21))
    yield Update("blocks that moved up", release, {"data": out.data, "hash": out.hash}, moved=BLOCKS - 22)
    many = Image((512, 512), BLOCKS + 2)
    few = Image((512, 512), BLOCKS + 2, out=(20, 200))
    yield Update("blocks that moved down", few, {"data": many.data, "hash": many.hash}, moved=BLOCKS - 20)
    yield Update("other salt", release, {"data": release.data, "hash": Image((512, 512), BLOCKS, salt=b"").hash})
    yield Update("nothing there", release, {})
    yield Update("the release itself", release, {"data": release.data, "hash": release.hash})
    damaged = bytearray(old.hash)
    damaged[0] ^= 1
    yield Update("a damaged superblock", release, {"data": old.data, "hash": bytes(damaged)})
    first, second = 8 * SECTOR, (8 + BLOCKS + 3) * SECTOR
    disk = bytes(8 * SECTOR) + old.data + b"\x77" * 3 * SECTOR + old.hash + b"\x55" * 700
    places = (first, len(old.data)), (second, len(old.hash))
    words = [f"disk@{at // SECTOR}+{size // SECTOR}" for at, size in places]
    yield Update("parts of a disk", release, {"disk": disk}, words, places)
    lies = bytearray(release.data)
    for block in range(0, BLOCKS, 2):
        lies[block * 512] ^= 1
    write("lies", lies)
    yield Update("a copy that lies", release, {"data": old.data, "hash": old.hash}, copies=("lies", "new.hash"))
    write("seed.data", out.data)
    write("seed.hash", out.hash)
    yield Update("blocks that moved in a copy", release, {"data": old.data, "hash": old.hash}, copies=("seed.data", "seed.hash"), seeded=len(changed) - 1)
    large = Image((1024, 2048), 150, [3, 64, 65])
    hashes = bytearray(large.hash)
    hashes[SECTOR:2048] = b"\x33" * (2048 - SECTOR)
    yield Update("larger blocks", Image((1024, 2048), 150), {"data": large.data, "hash": bytes(hashes)})


def main():
    program = os.path.abspath(sys.argv[1])
    cuts = failed = 0
    with tempfile.TemporaryDirectory(dir="/dev/shm" if os.path.isdir("/dev/shm") else None) as room:
        os.chdir(room)
        cutter = Cutter(program)
        for it in updates():
            write("new.data", it.release.data)
            write("new.hash", it.release.hash)
            write("pin", it.release.pin())
            try:
                cuts += it.cut_at_each(cutter) + it.cut_again(cutter)
            except Unlike as unlike:
                failed += 1
                print(f"{it.name}: {unlike}")
        os.chdir("/")
    print(f"cut_updates: {cuts} cuts, {failed} failed")
    return 1 if failed or not cuts else 0


if __name__ == "__main__":
    sys.exit(main())
