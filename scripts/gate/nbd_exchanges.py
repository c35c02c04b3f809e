#!/usr/bin/env python3
"""Exchanges of the NBD protocol, byte for byte, with the program `dmstack nbd`.

nbd_exchanges.py [PROGRAM]: runs each exchange on the program (`dmstack`) and compares what it writes, its
status and the images that it leaves. What is wanted is worked out here from the protocol's document: messages are put
together field by field, and an export is a run of bytes; what is encrypted is worked out by the model's cipher. It prints
how many agree, and the exchanges that don't. Its parts run side by side, each in a folder of its own.
"""
import os
import sys
import tempfile
from concurrent.futures import ProcessPoolExecutor
from functools import partial

sys.dont_write_bytecode = True
sys.path[:0] = [os.path.join(os.path.dirname(os.path.realpath(__file__)), it) for it in ("../model", "../lib")]

from nbd_ends import ahead, cuts, gone_within  # noqa: E402
from nbd_failures import failures, forced, refusals  # noqa: E402
from nbd_handshakes import contexts, handshakes, many_exports  # noqa: E402
from nbd_memory import memory  # noqa: E402
from nbd_messages import Runner  # noqa: E402
from nbd_reads import caches, chunks, gone, kept_blocks, transmissions  # noqa: E402
from nbd_statuses import ignored_blocks, statuses  # noqa: E402
from nbd_writes import crypt, fast_zeroes, full, long_runs, writes, zeroes  # noqa: E402


# The longest first.
PARTS = [failures, gone_within, ignored_blocks, cuts, chunks, zeroes, contexts, ahead, handshakes, forced]
PARTS += [transmissions, many_exports, statuses, writes, gone, kept_blocks, caches, long_runs, fast_zeroes, memory, crypt, full, refusals]


def counts_of(program, part):
    """How many exchanges of a part agree, and how many don't."""
    runner = Runner(program)
    with tempfile.TemporaryDirectory() as room:
        os.chdir(room)
        part(runner)
        os.chdir("/")
    return runner.passed, runner.failed


def main():
    given = sys.argv[1] if len(sys.argv) > 1 else "dmstack"
    program = os.path.abspath(given) if os.path.exists(given) else given
    total = Runner(program)
    with ProcessPoolExecutor(len(os.sched_getaffinity(0))) as pool:
        for passed, failed in pool.map(partial(counts_of, program), PARTS):
            total.passed += passed
            total.failed += failed
    return total.end("exchanges")


if __name__ == "__main__":
    sys.exit(main())
