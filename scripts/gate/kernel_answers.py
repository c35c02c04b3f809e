"""What the process of the virtual machine answers to the commands of a case."""
from stack import SECTOR


class Answers:
    """All answers, taken in their order."""

    def __init__(self, content):
        self.content, self.at = content, 0

    def line(self):
        end = self.content.index(b"\n", self.at)
        line, self.at = self.content[self.at:end], end + 1
        return line

    def device(self):
        """The size, the logical block and the printed table of a device that was made, or None."""
        verdict, *numbers = self.line().split(b" ")
        if verdict == b"refused":
            return None
        size, block, count = map(int, numbers)
        return size, block, [self.line() for _ in range(count)]

    def sectors(self):
        """The sectors of a device, None for each of a block that failed."""
        found = []
        while True:
            verdict, *numbers = self.line().split(b" ")
            if verdict == b"end":
                return found
            count = int(numbers[0])
            if verdict == b"failed":
                found += [None] * count
            else:
                found += [self.content[at:at + SECTOR] for at in range(self.at, self.at + count * SECTOR, SECTOR)]
                self.at += count * SECTOR


class Seen:
    """What Linux did with a case: the devices that it made, whether these are all, which writes it did, and what it read.

    `otherwise` has the devices that the program reads otherwise, as they are found."""

    def __init__(self, case, answers):
        leaves = [answers.device() for _ in case.leaves]
        made = [(name, answers.device()) for name, _, _ in case.entries()]
        self.made = {name: it for name, it in made if it}
        self.is_loaded = all(it for _, it in made)
        self.writes, self.sectors, self.otherwise = [], {}, set()
        if not case.fault:
            self.writes = [answers.line() == b"written" for _ in case.writes]
            self.sectors = {name: answers.sectors() for name in case.linux.configuration.devices}
        if not all(leaves) or answers.line() != b"removed":
            raise ValueError(f"case {case.number}: the answers of the machine aren't those of its commands")
