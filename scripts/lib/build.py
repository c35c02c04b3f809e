#!/usr/bin/env python3
"""Proves and builds the program and the libraries below it, as many side by side as processors and memory allow.

build.py [CPU]: the program for that processor, as x86-64-v3, which has AVX2; else for the kit's default.

Libraries in the crates' out/ are used if they are still valid, as by `rt run`. Reports progress on standard error, and
shows what rt said of a crate that isn't proved.
"""
import os
import signal
import subprocess
import sys
import tempfile
import threading
import time
from concurrent.futures import FIRST_COMPLETED, ThreadPoolExecutor, wait

sys.dont_write_bytecode = True
from kit import PROVED, SO_FAR, TOP, begin, crate_of, lock, memory_free, memory_needed, processors

PROGRAM = "dmstack"
START = time.monotonic()
SILENCE = 30.0
TOLD = threading.Event()


def tell(text):
    TOLD.set()
    print(f"dmstack: {text}\n", end="", file=sys.stderr, flush=True)


def since(start):
    minutes, seconds = divmod(round(time.monotonic() - start), 60)
    return f"{minutes} min {seconds} s" if minutes else f"{seconds} s"


class Log:
    """What rt says while it builds one crate."""

    def __init__(self, name):
        self.name, self.text = name, []

    def write(self, text):
        self.text.append(text)
        found = SO_FAR.match(text)
        if found and found[1] != "0":
            tell(f"{self.name}: {found[1]} of {found[2]} functions so far")

    def flush(self):
        pass

    def count(self):
        return len(PROVED.findall("".join(self.text)))


class Build:
    def __init__(self, libraries):
        self.libraries, self.done, self.log, self.running = libraries, 0, "", {}

    def library(self, crate, jobs):
        """Builds a library whose own libraries are built, and returns whether it did."""
        start, crate.out = time.monotonic(), Log(crate.name)
        self.running[crate.name] = start
        tell(f"proving {crate.name}")
        status = crate.build_rlib(["--jobs", str(jobs)], anew=False)
        del self.running[crate.name]
        if status:
            self.log = self.log or "".join(crate.out.text)
            tell(f"{crate.name} is not proved")
            return False
        self.done += 1
        of = f"{self.done} of {len(self.libraries)} libraries"
        tell(f"{of}: {crate.name}, {crate.out.count()} functions proved in {since(start)}")
        return True

    def break_silence(self):
        """Prints what is still being proved, if nothing was printed for a while."""
        while True:
            if not TOLD.wait(SILENCE) and self.running:
                tell("still proving " + ", ".join(f"{name} ({since(start)})" for name, start in [*self.running.items()]))
            TOLD.clear()
            time.sleep(1)

    def all_libraries(self):
        threading.Thread(target=self.break_silence, daemon=True).start()
        return in_chains(self.libraries, self.library)


def in_chains(libraries, build):
    """Builds libraries side by side, as many as there are processors and memory for, each once those below it are built, and
    first those with the longest chain of others above. Returns whether all were built; after a failure none is begun.

    The first in that order gets a job for each processor, even where others are being built: the time of the whole is that of the
    longest chain. The others get what is idle. The kit's own order gives each its share, and plans on more than twice the memory
    that a library's check was seen to take, which kept processors idle."""
    lanes, memory, behind = processors(), 0.85 * memory_free(), dict.fromkeys(libraries, 0)
    for it in reversed(libraries):
        behind[it] += it.count(rb"\n")
        for below in it.below():
            if below in behind:
                behind[below] = max(behind[below], behind[it])
    left, running, built = sorted(libraries, key=lambda it: -behind[it]), {}, set()
    is_well = True
    with ThreadPoolExecutor(lanes) as pool:
        while running or is_well and left:
            for it in [it for it in left if is_well and all(below in built for below in it.below() if below in behind)]:
                is_first = all(behind[it] >= behind[other] for other, _, _ in running.values())
                idle = lanes - sum(jobs for _, _, jobs in running.values())
                room = memory - sum(needs for _, needs, _ in running.values())
                needs = memory_needed(it) / 2
                if len(running) < lanes and (not running or needs <= room):
                    jobs = max(1, min(lanes if is_first else idle, 1 + int((room / needs - 1) / 0.6)))
                    left.remove(it)
                    running[pool.submit(build, it, jobs)] = it, needs * (1 + 0.6 * (jobs - 1)), jobs
            for done in wait(running, return_when=FIRST_COMPLETED).done:
                built.add(running.pop(done)[0])
                is_well = is_well and done.result()
    return is_well


def build_program(cpu):
    """Builds the program over its libraries, and returns what rt said where it could not."""
    with tempfile.TemporaryFile("w+", errors="replace") as log:
        how = {"cwd": f"{TOP}/crates/{PROGRAM}", "stdin": subprocess.DEVNULL, "stdout": log, "stderr": log}
        ran = subprocess.run(["rt", "run", *cpu, "--", "session"], **how)
        log.seek(0)
        return log.read() if ran.returncode else ""


def main():
    # Python would wait at Ctrl-C for what the threads started; so rt's guard ends that at once.
    signal.signal(signal.SIGINT, signal.SIG_DFL)
    os.chdir(TOP)
    begin()
    program = crate_of(PROGRAM)
    held = lock([*program.below(), program])
    build = Build([it for it in program.below() if not it.is_built()])
    if build.libraries:
        tell(f"proving and building the program, with libraries to prove: {len(build.libraries)}; this takes minutes")
    is_well = build.all_libraries()
    for it in held:
        os.close(it)
    if is_well:
        tell("building the program")
        build.log = build_program([f"--cpu={it}" for it in sys.argv[1:]])
    if not is_well or build.log:
        print(build.log, end="", file=sys.stderr)
        tell(f"not built, after {since(START)}: what rt said is above")
        return 1
    tell(f"built in {since(START)}")
    return 0


if __name__ == "__main__":
    sys.exit(main())
