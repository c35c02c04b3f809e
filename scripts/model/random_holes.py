"""Random stacks over devices of which some sectors fail."""

from random_stacks import Stacks
from tables import PREFIX


class Holes(Stacks):
    def holed_stack(self, session, writable=False):
        """A device with error lines in it, and one with lines of every kind over it; both may be writable."""
        leaves = [leaf for leaf in session.stack.configuration.leaves.values()
                  if 0 < leaf.sectors <= 400 and (leaf.writable or not writable)]
        if not leaves:
            return b"low,,,ro,0 3 error,3 2 zero,5 1 error"
        leaf = self.pick(leaves)
        at, start, lows, tops = 0, 0, [], []
        while at < leaf.sectors:
            length = min(self.pick([1, 2, 3, 5, 8, 17, 130]), leaf.sectors - at)
            kind = b"error" if self.chance(0.3) else b"linear %s %d" % (leaf.name, at)
            lows.append(b"%d %d %s" % (at, length, kind))
            at += length
        low = PREFIX + b"low"
        for _ in range(self.pick([1, 2, 3])):
            length, words = self.target([(low, leaf.sectors)], writable)
            if self.has("targets", "crypt") and self.chance(0.2):
                length, words = self.crypt(low, *self.range_of(leaf.sectors))
            tops.append(b"%d %d %s" % (start, length, words))
            start += length
        flag = b"rw" if writable else b"ro"
        entries = [b"low,,,%s,%s" % (flag, b",".join(lows)), b"top,,,%s,%s" % (flag, b",".join(tops))]
        self.random.shuffle(entries)
        return b";".join(entries)
