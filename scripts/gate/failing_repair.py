"""What `repair` may print, and what its files may hold, where a call failed on the way."""
import os
from itertools import takewhile

from failing_recovery import Unlike, read_file
from images import told_survey
from verity import read_superblock, survey

REFUSED = b"refused 10 Device"


class Repair:
    """A run of `repair` in which no call failed, with which others are compared. The files `whole.data` and `whole.hash` hold the
    image as it was formatted, and `root` its root digest."""

    def __init__(self, case, output, words):
        self.case, self.plain = case, output.split(b"\n")[:-1]
        self.before = self.files_before()
        self.paths = [it.decode() for it in words]
        self.whole = [self.before["whole.data"], self.before["whole.hash"]]
        superblock = read_superblock(self.whole[1])
        self.tree, self.salt, self.root = superblock.tree(), superblock.salt, bytes.fromhex(self.before["root"].decode())
        self.mended = list(takewhile(is_repaired, self.plain))
        self.check_left(self.mended)
        if self.left() != self.whole:
            raise Unlike("without a failure the image isn't whole")

    def files_before(self):
        """What the files held."""
        return {it: read_file(f"{self.case.start}/{it}") for it in os.listdir(self.case.start)}

    def left(self):
        """What DATA and HASH hold."""
        return [read_file(f"{self.case.room}/files/{it}") for it in self.paths[:2]]

    def place(self, line):
        """Which of the two files a line's block is of, and where it lies there."""
        kind, *numbers = line.split(b" ")[1:-1] if line.endswith((b" remade", b" parity")) else line.split(b" ")[1:-2]
        if kind == b"data":
            return 0, int(numbers[0]) * self.tree.data_block, self.tree.data_block
        level, index = map(int, numbers)
        return 1, (self.tree.first(level) + index) * self.tree.hash_block, self.tree.hash_block

    def check_left(self, mended, is_told=True):
        """Blocks that are named are whole and come from where it says, and all others are as they were; where not all lines came
        out, each block is one or the other."""
        named = {self.place(it): it for it in mended}
        sizes = self.tree.data_block, self.tree.hash_block
        for at, (left, size) in enumerate(zip(self.left(), sizes)):
            before = self.before[self.paths[at]]
            if len(left) != len(before):
                raise Unlike(f"{self.paths[at]} has another length")
            for first in range(0, len(left), size):
                part = slice(first, first + size)
                good = [self.whole[at][part]] if (at, first, size) in named else [before[part]]
                if left[part] not in good + [self.whole[at][part]] * (not is_told):
                    raise Unlike(f"block {first // size} of {self.paths[at]} isn't as it is to be")
        for (at, first, size), line in named.items():
            *_, source, number = line.split(b" ")
            part = slice(first, first + size)
            if source == b"copy" and self.before[self.paths[2 * int(number) + at]][part] != self.whole[at][part]:
                raise Unlike(f"that copy hasn't the block: {line}")
            if source == b"from" and self.before[self.paths[0]][int(number) * size:][:size] != self.whole[0][part]:
                raise Unlike(f"the block isn't there: {line}")
        for name, content in self.before.items():
            if name not in self.paths[:2] and read_file(f"{self.case.room}/files/{name}") != content:
                raise Unlike(f"{name} is changed")

    def check(self, kind, what, output, status):
        """A run in which a call of that kind failed."""
        lines = output.split(b"\n")[:-1]
        mended = list(takewhile(is_repaired, lines))
        rest = lines[len(mended):]
        self.check_left(mended, kind != "output")
        if kind == "output":
            good = status == 1 and b"\n".join(self.plain + [b""]).startswith(output)
        elif kind == "text":
            good = status == 1 and not mended and rest[:1] != [] and rest[0].startswith(b"refused ")
        elif kind == "memory":
            good = status == 1 and rest == [b"no memory"] and self.mended[:len(mended)] == mended
        elif what[0] == b"read":
            good = self.is_read_around(mended, rest, status)
        else:
            wanted = self.mended if what[0] == b"sync" else self.mended[:len(mended)]
            good = status == 1 and rest == [REFUSED] and mended == wanted
        if not good:
            raise Unlike(f"status {status}, {output[-200:]}")
        return self.check_again(self.case.fail(again=True))

    def is_read_around(self, mended, rest, status):
        """What couldn't be read once, at most one good block, was sought elsewhere, or stays lost: as the model says of what is left.
        A superblock that can't be read ends it."""
        anew = set(map(self.place, mended)) - set(map(self.place, self.mended))
        if len(anew) > 1:
            return False
        return (rest, status) == ([REFUSED], 1) or (rest, status) in self.told_around()

    def told_around(self):
        """What may be printed about what is left if one read of it failed. Data that can't be read in a piece are read again block by
        block, so that is what stands there; or the blocks beneath a hash block that couldn't be read aren't known; or one that
        couldn't be compared with the one above it isn't good."""
        states, bad = survey(*self.left(), self.tree, self.salt, self.root)
        told = [told_survey(states, bad, False)]
        for level, count in enumerate(self.tree.levels):
            width = self.tree.slots ** (level + 1)
            for index in range(count):
                hidden = ["unknown" if at // width == index else it for at, it in enumerate(states)]
                more = sorted({*bad, (level, index)}, key=lambda it: (-it[0], it[1]))
                told += [told_survey(hidden, bad, False), told_survey(states, more, False)]
        return told

    def check_again(self, ran):
        """Repeated, it ends with a whole image."""
        if ran[1] != 0 or ran[0].split(b"\n")[-2] != self.plain[-1] or self.left() != self.whole:
            raise Unlike(f"repeated: status {ran[1]}, {ran[0][-200:]}")


def is_repaired(line):
    return line.startswith((b"repaired ", b"moved "))
