"""What `update` may print, and what its files may hold, where a call failed on the way."""
from itertools import takewhile

from failing_recovery import Unlike, read_file
from failing_repair import REFUSED, Repair, is_repaired
from stack import SECTOR
from updates import counted, told

CLEARED = bytes(SECTOR)


class Update(Repair):
    """A run of `update` in which no call failed, with which others are compared. The files are those of `Repair`, `whole.data` and
    `whole.hash` the release. The superblock of HASH is looked at apart from the blocks."""

    def __init__(self, case, output, words):
        data, hashes, *copies = words
        self.old = read_file(f"{case.start}/{hashes.decode()}")[:SECTOR]
        self.new = read_file(f"{case.start}/whole.hash")[:SECTOR]
        super().__init__(case, output, [data, hashes, *copies[2:], *copies[:2]])
        self.good = self.plain[-2]
        self.last_copy = b" copy %d" % (len(copies) // 2)
        if self.plain != self.told(self.mended) or self.superblock() != self.new:
            raise Unlike("without a failure it ends otherwise")

    def told(self, mended):
        """What is printed if these blocks are written, and each block that is read from the release has its digest."""
        fetched = [sum(it.startswith(kind) and it.endswith(self.last_copy) for it in mended) for kind in (b"repaired data ", b"repaired hash ")]
        return told(self.tree, mended, counted(self.tree, mended, 0, fetched), False)

    def is_told(self, lines, mended):
        """Whether that was printed, or more was read from the release, since a read failed: then more may count as fetched, and as much
        less as moved."""
        wanted = self.told(mended)
        kept, moved, fetched = ([int(line.split()[at]) for line in (lines[-1], wanted[-1])] for at in (1, 3, 5))
        return lines[:-1] == wanted[:-1] and kept[0] == kept[1] and moved[0] + fetched[0] == moved[1] + fetched[1] and fetched[0] >= fetched[1]

    def files_before(self):
        before = super().files_before()
        return {**before, "hash": self.new + before["hash"][SECTOR:]}

    def left(self):
        data, hashes = super().left()
        return [data, self.new + hashes[SECTOR:]]

    def superblock(self):
        return super().left()[1][:SECTOR]

    def blocks_left(self, other):
        """How many data and hash blocks of what was left aren't as the other two files have them."""
        sizes = self.tree.data_block, self.tree.hash_block
        return [sum(left[at:at + size] != content[at:at + size] for at in range(0, len(left), size))
                for left, content, size in zip(self.left(), other, sizes)]

    def check(self, kind, what, output, status):
        lines = output.split(b"\n")[:-1]
        mended = list(takewhile(is_repaired, lines))
        rest = lines[len(mended):]
        self.check_left(mended, kind != "output")
        is_untouched = not any(self.blocks_left([self.before[it] for it in self.paths[:2]]))
        is_whole = self.left() == self.whole
        if kind == "output":
            # it goes on without printing
            good = status == 1 and is_whole and b"\n".join(self.plain + [b""]).startswith(output)
            states = {self.new}
        elif kind == "text":
            good = status == 1 and not mended and rest[:1] != [] and rest[0].startswith(b"refused ")
            states = {self.old}
        elif kind == "memory" and status == 0:
            # without memory for the list of the old blocks nothing is copied within DATA, and without that for large reads each block
            # is fetched by itself
            unmoved = not any(it.startswith(b"moved ") for it in mended)
            is_same = sorted(mended) == sorted(self.mended)
            good, states = (unmoved or is_same) and is_whole and lines == self.told(mended), {self.new}
        elif kind == "memory":
            good = status == 1 and rest == [b"no memory"] and self.mended[:len(mended)] == mended
            states = {self.old, CLEARED} if is_untouched else {CLEARED}
        elif rest == [REFUSED + b" second"]:
            # the root hash block of the release couldn't be read
            good, states = status == 1 and what[0] == b"read" and not mended and is_untouched, {self.old}
        else:
            good, states = self.ends_on_device(what[0], mended, rest, status)
            states |= {self.old} if is_untouched and rest == [REFUSED] else set()
        if not good or self.superblock() not in states:
            raise Unlike(f"status {status}, {output[-200:]}, a superblock that begins with {self.superblock()[:8]}")
        return self.check_again(self.case.fail(again=True))

    def ends_on_device(self, call, mended, rest, status):
        """Whether this is an end of a run in which a read, a write or a sync failed, and the superblocks that may be left then."""
        if rest == [self.good, REFUSED]:
            # the superblock couldn't be written or synced
            return status == 1 and call != b"read" and mended == self.mended, {CLEARED, self.new}
        if call == b"sync" and len(rest) == 3:
            # all is the release's, and a file couldn't be synced after it was shortened
            is_told = mended + rest[:2] == self.told(self.mended)
            return status == 1 and is_told and rest[2] in [b"refused 4 OtherFault " + it.encode() for it in self.paths[:2]], {self.new}
        if call != b"read":
            wanted = self.mended if call == b"sync" and mended else self.mended[:len(mended)]
            return status == 1 and rest == [REFUSED] and mended == wanted, {CLEARED}
        if rest and rest[-1].startswith(b"kept ") and self.is_told(mended + rest, mended):
            anew = set(map(self.place, mended)) - set(map(self.place, self.mended))
            return status == 0 and len(anew) <= 1, {self.new}
        return self.is_read_around(mended, rest, status), {CLEARED}

    def check_again(self, ran):
        """Repeated, it ends with the release."""
        if ran[1] != 0 or ran[0].split(b"\n")[-3] != self.good or self.left() != self.whole or self.superblock() != self.new:
            raise Unlike(f"repeated: status {ran[1]}, {ran[0][-200:]}")
