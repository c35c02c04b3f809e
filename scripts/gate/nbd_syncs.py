"""What a service has synced when it answers, as strace sees it: nothing that was written is unsynced when a write with FUA, or a
flush, is answered."""
import os
import re
import struct
import time

from nbd_served import Left, Served, needs, run, say, words_for

CALLS = "read,write,pwrite64,fsync,fdatasync"
CALL = re.compile(r'^(?:\d+ +)?(\w+)\((\d+)(?:, "((?:\\x[0-9a-f]{2})*)")?.* = (-?\d+)')
REQUEST = struct.pack(">I", 0x25609513)
# A simple reply, and the last chunk of another.
REPLIES = re.compile(rb"\x67\x44\x66\x98|\x66\x8e\x33\xef\x00\x01", re.DOTALL)
WRITE, DISCONNECT, FLUSH, ZEROES = 1, 2, 3, 6


def calls_of(path):
    """The calls of a trace: their names, the files, and the bytes that were moved."""
    for line in open(path):
        found = CALL.match(line)
        if found and int(found[4]) >= 0:
            octets = bytes.fromhex((found[3] or "").replace("\\x", ""))
            yield found[1], int(found[2]), octets[: int(found[4])] if found[1] == "read" else octets


def requests(given):
    """The commands, flags and cookies of what a client sent, in their order, but for the end."""
    for at in (it.start() for it in re.finditer(re.escape(REQUEST), given)):
        if at + 28 <= len(given):
            flags, command, cookie = struct.unpack(">HH8s", given[at + 4 : at + 16])
            if command != DISCONNECT:
                yield command, flags, cookie


def seen(path):
    """Of each request in a trace its command, its flags, and how many files were written and not synced when it was answered."""
    given, dirty, answers = b"", set(), []
    for call, file, octets in calls_of(path):
        if call == "pwrite64":
            dirty.add(file)
        elif call in ("fsync", "fdatasync"):
            dirty.discard(file)
        elif call == "read" and file == 0:
            given += octets
        elif call == "write" and file == 1:
            answers += [(octets[it.start() + 8 : it.start() + 16], len(dirty)) for it in REPLIES.finditer(octets)]
    asked = list(requests(given))
    say("syncs: each request is answered in its turn", [it[2] for it in asked] == [it[0] for it in answers], f"{len(asked)} and {len(answers)}")
    return [(command, flags, count) for (command, flags, _), (_, count) in zip(asked, answers)]


def wait_for(path):
    """Waits until the traced service has ended, which may be after its client has."""
    for _ in range(600):
        with open(path) as trace:
            if "+++ " in trace.read():
                return
        time.sleep(0.05)


def syncs():
    """qemu-io writes with FUA and without, and flushes, over a device that lies on two files."""
    needs("socat", "strace", "qemu-io")
    if run("strace", "-qq", "-o", "tried", "-e", f"trace={CALLS}", "true").returncode:
        raise Left("strace may trace nothing")
    for it in "AB":
        open(f"half.{it}", "wb").write(bytes(1 << 20))
    open("halves", "w").write("h,,,rw,0 2048 linear A 0,2048 2048 linear B 0")
    words = words_for("halves", "h", *(f"{it}=rw:{os.path.abspath(f'half.{it}')}" for it in "AB"))
    traced = ["strace", "-q", "-o", os.path.abspath("trace"), "-xx", "-s", "4194304", "-e", f"trace={CALLS}", *words]
    across = (1 << 20) - 700
    with Served(traced) as uri:
        made = ["write -P 1 0 4096", "write -P 2 1048576 4096", "flush", f"write -P 3 {across} 5000", "flush"]
        made += ["write -P 4 100 9", "write -f -P 5 513 700", f"write -f -P 6 {across} 1500", "write -z 8192 700", f"write -z -f {across} 2000", "flush"]
        done = run("qemu-io", "-t", "writeback", "-f", "raw", *(it for one in made for it in ("-c", one)), "nbd:unix:" + uri.split("=")[1])
        say("syncs: qemu-io", done.returncode == 0, done.stderr.decode())
        wait_for("trace")
    found = seen("trace")
    forced = [it for it in found if it[0] in (WRITE, ZEROES) and it[1] & 1]
    flushed = [it for it in found if it[0] == FLUSH]
    say("syncs: writes with FUA", len(forced) >= 3, str(found))
    say("syncs: flushes", len(flushed) >= 3, str(found))
    say("syncs: writes that aren't synced yet", any(count for *_, count in found), str(found))
    for command, flags, count in forced + flushed:
        say(f"syncs: command {command} with flags {flags}", not count, f"{count} files aren't synced")
    say("syncs: none failed", not re.search(r"sync\(\d+\) += -", open("trace").read()))
