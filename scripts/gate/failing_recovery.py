"""What `scan` and `copy` may print, and what the image of a copy may have, where a call failed on the way."""
import os


class Unlike(Exception):
    """What a run did unlike what it may."""


def read_file(path):
    with open(path, "rb") as it:
        return it.read()


def runs_of(output):
    """The runs of lost sectors as (first, count, fault), the sums of the last line, and the lines themselves."""
    lines = output.split(b"\n")[:-1]
    runs = [tuple(it.split(b" ", 3)[1:]) for it in lines[:-1]]
    sums = lines[-1].split(b" ")
    if any(not it.startswith(b"lost ") for it in lines[:-1]) or sums[::2] != [b"read", b"lost"]:
        raise Unlike(f"output {output[-200:]}")
    return [(int(first), int(count), fault) for first, count, fault in runs], tuple(map(int, sums[1::2]))


def lost_by(runs):
    return {at: fault for first, count, fault in runs for at in range(first, first + count)}


class Recovery:
    """A run of `scan` or `copy` in which no call failed, with which others are compared."""

    def __init__(self, case, output):
        self.case, self.lines = case, output.split(b"\n")[:-1]
        runs, sums = runs_of(output)
        self.lost, self.sectors = lost_by(runs), sum(sums)
        # STACK NAME OUT, or --disk DISK OUT
        self.out = case.words[3].decode() if case.words[0] == b"copy" else ""
        if self.out:
            self.before, self.after = (read_file(f"{it}/{self.out}") for it in (case.start, f"{case.room}/files"))

    def check_early_end(self, output, status, wanted):
        """It ends early by one line, after the first runs."""
        lines = output.split(b"\n")[:-1]
        if status != 1 or lines[-1:] != [wanted] or lines[:-1] != self.lines[: len(lines) - 1]:
            raise Unlike(f"status {status}, {output[-200:]}, in place of {wanted}")

    def check_failure(self, path, output, status):
        """A call on a file failed: the image's is named; a leaf's is its sectors' fault, or unseen where they are read again."""
        if os.path.basename(path).decode() == self.out:
            return self.check_early_end(output, status, b"refused 2 Device")
        runs, sums = runs_of(output)
        lost, fault = lost_by(runs), b"3 Device %d" % self.case.leaf(path)
        for one, other in zip(runs, runs[1:]):
            if one[0] + one[1] > other[0] or one[0] + one[1] == other[0] and one[2] == other[2]:
                raise Unlike(f"the runs {one} and {other}")
        for at in range(self.sectors):
            if lost.get(at) != self.lost.get(at) and lost.get(at) != fault:
                raise Unlike(f"sector {at} is lost by {lost.get(at)}, and without the failure by {self.lost.get(at)}")
        if sums != (self.sectors - len(lost), len(lost)) or status != (3 if lost else 0):
            raise Unlike(f"status {status}, {output[-200:]}")
        return self.check_image(lost)

    def check_image(self, lost):
        """The image has the recovered sectors, and all else is as it was."""
        image = read_file(f"{self.case.room}/files/{self.out}") if self.out else b""
        for at in range(len(image) // 512):
            part = slice(512 * at, 512 * at + 512)
            if image[part] != (self.before if at in lost else self.after)[part]:
                raise Unlike(f"sector {at} of the image")
