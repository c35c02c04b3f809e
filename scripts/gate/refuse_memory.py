#!/usr/bin/env python3
"""Refuses each allocation of the program in turn, in each case of scripts/gate/memory, until a run meets no refusal.

    refuse_memory.py [--program FILE] [NAME..]: all cases, or those of these names

A case is as scripts/lib/case.sh says, with the file `allowed`: on each line a status and the lines of an output, joined by `/`. The
first is what a run without a refusal gives; the others are what may come where one was met. A file `program` names another
program than dmstack: `bench` makes the calls that no command makes.
"""
import os
import subprocess
import sys
import tempfile

sys.dont_write_bytecode = True
TOP = os.path.dirname(os.path.dirname(os.path.dirname(os.path.realpath(__file__))))
sys.path += [f"{TOP}/scripts/lib", f"{TOP}/scripts/model"]

from cases import Case, lines_of, program_and_names  # noqa: E402
from checks import Checks  # noqa: E402
from sentences import without_sentence  # noqa: E402

FOLDER = f"{TOP}/scripts/gate/memory"


def program_of(case, dmstack):
    """The program of a case, built."""
    name = case.text("program").decode().strip()
    if not name:
        return dmstack
    if "GATE_BUILT" not in os.environ:
        subprocess.run(["rt", "run", "--", "none"], cwd=f"{TOP}/crates/{name}", stdout=subprocess.DEVNULL, check=True)
    return f"{TOP}/crates/{name}/out/{name}"


def outcome(case, program, library, number):
    """The status and the output of the run in which the allocation of this number is refused, and whether one was."""
    met = f"{case.room}/met"
    if os.path.exists(met):
        os.remove(met)
    case.renew()
    done = case.run(program, {"LD_PRELOAD": library, "REFUSE": str(number), "REFUSE_MET": met})
    told = without_sentence(done.stdout, done.stderr, done.returncode, case.words)
    if told is None:
        told = b"%r in place of the sentence on what ended the command\n" % done.stderr[:300]
    after = b""
    if case.has("after"):
        with_errors = {"stdout": subprocess.PIPE, "stderr": subprocess.STDOUT}
        after = subprocess.run(["bash", f"{case.folder}/after"], cwd=case.files, check=False, **with_errors).stdout
    text = (done.stdout + after + told).replace(b"\n", b"/")
    return b"%d %s" % (done.returncode, text.removesuffix(b"/")), os.path.exists(met)


def check_case(case, name, program, library):
    """Prints each run that gives what isn't allowed, and how many refusals there were; whether all is well."""
    allowed, is_well = lines_of(case.text("allowed")), True
    number, was_met = 0, True
    while was_met:
        number += 1
        got, was_met = outcome(case, program, library, number)
        if got not in (allowed if was_met else allowed[:1]):
            print(f"{name}: {f'refusal {number}' if was_met else 'without a refusal'}: {os.fsdecode(got)}", flush=True)
            is_well = False
    print(f"{name}: {number - 1} refusals", flush=True)
    return is_well and number > 1


def main():
    dmstack, names = program_and_names("Refuses each allocation of the program in turn.", FOLDER)
    checks = Checks()
    with tempfile.TemporaryDirectory(prefix="refused.", dir="/dev/shm" if os.path.isdir("/dev/shm") else None) as place:
        library = f"{place}/refuse.so"
        subprocess.run(["cc", "-shared", "-fPIC", "-O2", "-o", library, f"{TOP}/scripts/gate/refuse_alloc.c", "-ldl"], check=True)
        for name in names:
            os.mkdir(f"{place}/{name}")
            case = Case(f"{FOLDER}/{name}", f"{place}/{name}")
            is_well = check_case(case, name, program_of(case, dmstack), library)
            checks.count(name, is_well, "not as allowed, or nothing was refused")
    return checks.end("memory")


if __name__ == "__main__":
    sys.exit(main())
