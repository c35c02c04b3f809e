"""Exchanges of the NBD protocol: how much memory a service takes."""
import re
import resource
import subprocess
import threading

from nbd_messages import (
    ACK, DF, DISC, ENOMEM, Export, GO, GREETING, INFO, LIST, MOST, READ, SECTOR, SERVER, SET_META, STATUS, STRUCTURED, WRITE, asks, begun,
    begun_in_chunks, context, failed, flags, option, option_reply, queries, request, taken,
)

MIB = 1 << 20
# The address space that a session may take. The least with which the program serves these sessions, compiled by `./dmstack`, is 6.4 MiB:
# 4.3 MiB with which `dmstack version` runs, 1 MiB for the buffer of the pieces of a READ, and 1 MiB for the bytes of a WRITE, or of
# a READ that isn't answered in chunks. The limit is the next multiple of 16 MiB, since other compilers and C libraries take other
# sizes. So a session that takes 10 MiB more isn't served.
LIMIT = 16 * MIB
SIZE = 2 * MIB
KEY = "".join(f"{k:02x}" for k in range(64))
LINES = {"linear": f"0 {SIZE // SECTOR} linear F 0", "crypt": f"0 {SIZE // SECTOR} crypt aes-xts-plain64 {KEY} 0 F 0"}


def limited():
    resource.setrlimit(resource.RLIMIT_AS, (LIMIT, LIMIT))


def agreed(e):
    """A greeting, and options: what is offered, chunks, the status of blocks, and the export."""
    name = e.name.encode()
    sent = flags(3) + option(LIST) + option(STRUCTURED) + option(SET_META, queries(name, b"base:allocation"))
    wanted = GREETING + option_reply(LIST, SERVER, len(name).to_bytes(4, "big") + name) + option_reply(LIST, ACK) + option_reply(STRUCTURED, ACK)
    wanted += context(SET_META, 1) + option_reply(SET_META, ACK)
    for number in (INFO, GO):
        sent += option(number, asks(name, 3))
        wanted += e.told(number, True, True)
    return sent, wanted


def session(in_chunks):
    """A session but for its end: 1 MiB is written, from a place within a sector, and read back; in chunks, a BLOCK_STATUS follows."""
    e, at, data = Export("f", bytes(SIZE), writable=True), SIZE // 4 + 700, bytes((5 * k + 1) % 253 for k in range(MIB))
    sent, wanted = agreed(e) if in_chunks else begun(e)
    sent += request(WRITE, at, MIB, data=data) + request(READ, at, MIB)
    wanted += e.write(at, data) + (e.chunks(at, MIB) if in_chunks else e.read(at, MIB))
    if in_chunks:
        sent, wanted = sent + request(STATUS, at, MIB), wanted + e.status(at, MIB)
    return sent, wanted


def memory(runner):
    """Sessions within a limit of the address space, and how much address space they take without one."""
    for kind, line in LINES.items():
        open("stack", "w").write(f"f,,,rw,{line}")
        for in_chunks in (False, True):
            label = f"a session over a {kind} line, {'in chunks' if in_chunks else 'with simple replies'}"
            sent, wanted = session(in_chunks)
            open("F", "wb").write(bytes(SIZE))
            runner.serve(f"{label}, within {LIMIT >> 20} MiB", ["stack", "f", "F=rw:F"], sent + request(DISC), wanted, limited=limited)
            took = taken_by(runner, sent, wanted)
            runner.count(f"{label}: its address space", 0 < took <= LIMIT, f"it took {took} bytes, and not at most {LIMIT}")
    refused_within(runner)


def taken_by(runner, sent, wanted):
    """The most address space that a session without a limit has taken when all is served but its end; 0 if it isn't served. This also
    shows an allocation whose refusal the service ignores, which a limit doesn't."""
    words = [runner.program, "nbd", "stack", "f", "F=rw:F"]
    served = subprocess.Popen(words, bufsize=0, stdin=subprocess.PIPE, stdout=subprocess.PIPE, stderr=subprocess.DEVNULL)
    limit, writer = threading.Timer(60, served.kill), threading.Thread(target=give, args=(served.stdin, sent), daemon=True)
    limit.start()
    writer.start()
    with served.stdout:
        found = taken(served.stdout, len(wanted))
        writer.join(60)
        with open(f"/proc/{served.pid}/status", encoding="ascii") as it:
            peak = re.search(r"^VmPeak:\s+(\d+) kB$", it.read(), re.M)
        with served.stdin:
            give(served.stdin, request(DISC))
        found += served.stdout.read()
    good = served.wait(60) == 0 and found == wanted and peak
    limit.cancel()
    return 1024 * int(peak[1]) if good else 0


def give(pipe, sent):
    """Writes to a service, which may have ended."""
    at = 0
    try:
        while at < len(sent):
            at += pipe.write(sent[at : at + MIB])
    except BrokenPipeError:
        pass


def refused_within(runner):
    """The limit is in force: one chunk of 32 MiB, all of which is read before its header is sent, has no room. The service goes on."""
    with open("F", "wb") as it:
        it.truncate(MOST)
    open("stack", "w").write(f"f,,,rw,0 {MOST // SECTOR} linear F 0")
    e = Export("f", bytes(MOST), writable=True)
    sent, wanted = begun_in_chunks(e)
    sent += request(READ, 0, MOST, bits=DF) + request(WRITE, 509, 6, data=b"across") + request(READ, 507, 9) + request(DISC)
    wanted += failed(ENOMEM) + e.write(509, b"across") + e.chunks(507, 9)
    runner.serve(f"a chunk of {MOST >> 20} MiB within {LIMIT >> 20} MiB", ["stack", "f", "F=rw:F"], sent, wanted, limited=limited)
