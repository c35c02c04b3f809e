"""Checks that are counted, as checks.sh counts them for bash, and random cases by their numbers."""
import random


class Checks:
    """How many checks have passed and how many have failed."""

    def __init__(self):
        self.passed = self.failed = 0

    def count(self, label, good, problem="differs"):
        """Counts a check, and prints the problem of one that fails."""
        if good:
            self.passed += 1
        else:
            self.failed += 1
            print(f"{label}: {problem}", flush=True)

    def attempt(self, label, wrong, tried, *words):
        """Counts a function that raises `wrong` where it finds a problem; what it returns, or None."""
        problem, made = None, None
        try:
            made = tried(*words)
        except wrong as found:
            problem = found
        self.count(label, problem is None, problem)
        return made

    def end(self, what):
        """Prints how many there were. The status is 0 if some passed and none failed."""
        print(f"{what}: {self.passed} passed, {self.failed} failed")
        return 1 if self.failed or not self.passed else 0


def add_cases(parser, number):
    """Adds the options of a script with random cases: so many of them, unless `--cases` says otherwise, and the seed."""
    parser.add_argument("--cases", type=int, default=number)
    parser.add_argument("--seed", type=int, default=1)


def random_cases(words):
    """The cases that these options ask for: the number of each, its random numbers, and its label."""
    for number in range(words.cases):
        yield number, random.Random(words.seed * 1000003 + number), f"case {number} of seed {words.seed}"
