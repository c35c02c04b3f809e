#!/usr/bin/env python3
"""The first run of a fresh copy: ./dmstack compiles the program without its proofs, says so, and prints what the proved one
prints, in each row of tests/rows too. Then what ./dmstack, ./prove and ./check say where something is missing or wrong: one
line, and nothing half made is taken for whole.
"""
import os
import re
import shutil
import signal
import subprocess
import sys
import tempfile
import time

TOP = os.path.dirname(os.path.dirname(os.path.dirname(os.path.realpath(__file__))))
SESSION = b"load a,,,rw,0 4 linear D 2,4 4 zero\nread a 3 2\n"
REPLIES = b"loaded 1\n3 all 05\n4 all 00\n"
COMPILING = r"dmstack: compiling the program without its proofs, in about three minutes; \./prove proves it\n"
COMPILED = r"dmstack: half way, [^\n]*\ndmstack: compiled in \d+ s: its proofs haven't been run on this machine; \./prove runs them\n"
FAILED = []


def expect(name, ran, status, out, errors):
    """Compares how a run ended with what is wanted; `errors` is a pattern."""
    is_well = ran.returncode == status and ran.stdout == out and re.fullmatch(errors, ran.stderr.decode())
    if not is_well:
        print(f"{name}: status {ran.returncode}, and {status} is wanted\n{ran.stdout.decode()}{ran.stderr.decode()}")
        FAILED.append(name)


def run(top, *words, **how):
    return subprocess.run([f"{top}/{words[0]}", *words[1:]], input=SESSION, capture_output=True, **how)


def copy_of_sources(to):
    """A copy of all that ./dmstack reads."""
    for name in ("dmstack", "prove", "check", "crates.txt"):
        shutil.copy(f"{TOP}/{name}", to)
    shutil.copytree(f"{TOP}/scripts", f"{to}/scripts", ignore=shutil.ignore_patterns("__pycache__"))
    shutil.copytree(f"{TOP}/crates", f"{to}/crates", ignore=shutil.ignore_patterns("out"))


def without_the_kit(top, room):
    tools = os.path.join(room, "tools")
    os.mkdir(tools)
    for name in ("bash", "env", "cat", "dirname", "readlink", "find", "grep", "python3", "cc", "xxd"):
        os.symlink(shutil.which(name), os.path.join(tools, name))
    where = {"env": {"PATH": tools}}
    expect("no kit", run(top, "dmstack", **where), 1, b"", r"dmstack: not built yet, and rt, [^\n]*\n")
    expect("no kit to prove with", run(top, "prove", **where), 1, b"", r"prove: rt, [^\n]*\n")
    expect("no kit to check with", run(top, "check", **where), 1, b"", r"check: rt is not on the path\n")


def interrupted(top):
    """Ctrl-C while it compiles."""
    how = {"stdin": subprocess.DEVNULL, "stdout": subprocess.PIPE, "stderr": subprocess.PIPE, "start_new_session": True}
    # A shell can't trap what was ignored when it began, as Ctrl-C is of what another shell starts with `&`.
    how["preexec_fn"] = lambda: signal.signal(signal.SIGINT, signal.SIG_DFL)
    with subprocess.Popen([f"{top}/dmstack", "session"], **how) as running:
        first = running.stderr.readline()
        time.sleep(2)
        os.killpg(running.pid, signal.SIGINT)
        out, errors = running.communicate(timeout=60)
    ran = subprocess.CompletedProcess([], running.returncode and 1, out, first + errors)
    expect("interrupted", ran, 1, b"", COMPILING + r"dmstack: not compiled: interrupted\n")
    left = sorted(os.listdir(f"{top}/out/compiled"))
    if left != ["dmstack.lock"]:
        print(f"interrupted: it leaves {' '.join(left)}")
        FAILED.append("what an interruption leaves")


def on_a_full_disk(top):
    """A disk with no room, where root may make one."""
    made = f"{top}/out"
    shutil.rmtree(made, ignore_errors=True)
    os.mkdir(made)
    if subprocess.run(["mount", "-t", "tmpfs", "-o", "size=1m", "none", made], capture_output=True).returncode:
        print("first run: no full disk was tried, since none can be mounted here")
        return
    try:
        expect("full disk", run(top, "dmstack", "session"), 1, b"", r"dmstack: not compiled: [^\n]+ has 1 MB free, and \d+ are needed\n")
    finally:
        subprocess.run(["umount", made], check=True)


def main():
    signal.signal(signal.SIGTERM, lambda *_: sys.exit(1))
    expect("first run", run(TOP, "dmstack", "session", "D=ramp:8"), 0, REPLIES, COMPILING + COMPILED)
    expect("second run", run(TOP, "dmstack", "session", "D=ramp:8"), 0, REPLIES, "")
    version = rb"dmstack 1, compiled and not proved; to be proved with rattle logic [0-9a-f]{16}\n"
    ran = run(TOP, "dmstack", "version")
    expect("version", ran, 0, ran.stdout if re.fullmatch(version, ran.stdout) else b"(that it isn't proved)\n", "")
    expect("a word for prove", run(TOP, "prove", "all"), 2, b"", r"prove: [^\n]*\n")
    expect("an unknown word for check", run(TOP, "check", "--every"), 2, b"", r"check: [^\n]*\n")
    with tempfile.TemporaryDirectory(prefix="first-run-") as room:
        top = os.path.join(room, "copy of all")
        os.mkdir(top)
        copy_of_sources(top)
        without_the_kit(top, room)
        interrupted(top)
        on_a_full_disk(top)
    rows = subprocess.run([f"{TOP}/scripts/gate/rows.sh", "--program", f"{TOP}/out/compiled/dmstack"]).returncode
    print(f"first run: {len(FAILED)} failed" + (", and rows" if rows else ""))
    return 1 if FAILED or rows else 0


if __name__ == "__main__":
    sys.exit(main())
