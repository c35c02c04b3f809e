"""Runs of the program that are killed at one of their calls, by scripts/gate/fail_calls.c."""
import os
import signal
import subprocess

GATE = os.path.join(os.path.dirname(os.path.realpath(__file__)), "../gate")
MOST = 10_000


class Unlike(Exception):
    """What a run left that it may not."""


class Cutter:
    """A program that runs in the current folder, and the library that kills it."""

    def __init__(self, program):
        self.program, self.library = os.path.abspath(program), os.path.abspath("fail_calls.so")
        subprocess.run(["cc", "-shared", "-fPIC", "-O2", "-o", self.library, f"{GATE}/fail_calls.c", "-ldl"], check=True)

    def run(self, words, kind="", number=0):
        """The status, the output, and the call of that kind and number with the path of its file, if it killed the program."""
        cut = {"LD_PRELOAD": self.library, "FAIL_KIND": kind, "FAIL": str(number), "FAIL_CUT": "1", "FAIL_MET": "met"}
        if os.path.exists("met"):
            os.remove("met")
        run = subprocess.run([self.program, *words], capture_output=True, env={**os.environ, **(cut if number else {})})
        if not os.path.exists("met"):
            return run.returncode, run.stdout, None
        with open("met", encoding="utf-8") as it:
            call, _, _, path = it.read().rstrip("\n").split(" ", 3)
        return run.returncode, run.stdout, (call, path)

    def cuts(self, words, kind, prepare, end=0):
        """Yields the number, the call and its path after each run that was killed at it. `prepare` comes before each run. The last
        run isn't killed, and must end with the status `end`."""
        for number in range(1, MOST):
            prepare()
            status, output, met = self.run(words, kind, number)
            if met is None:
                if status != end:
                    raise Unlike(f"a run that isn't cut ends with the status {status}: {output[-200:]}")
                return
            if status != -signal.SIGKILL:
                raise Unlike(f"call {number} doesn't kill the run")
            yield number, *met
        raise Unlike("too many calls")
