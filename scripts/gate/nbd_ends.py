"""Exchanges of the NBD protocol: input that ends, and clients that are ahead or go away."""
import os
import random
import resource
import signal
import struct
import subprocess
import threading
import time

from nbd_messages import (
    ACK, CACHE, DF, DISC, EXPORT_NAME, Export, FLUSH, FUA, GO, GREETING, INFO, LIST, LIST_META, READ, REQ_ONE, SECTOR, SERVER, SET_META,
    STACK, STATUS, STRUCTURED, TRIM, WRITE, ZEROES, asks, begun, begun_in_chunks, context, exports, faults_line, flags, option,
    option_reply, queries, reply, request, requests_of, taken, without_log,
)
from sentences import without_sentence


def cuts(runner):
    """The input ends at every byte: only between two messages is that a plain end."""
    e = exports()["file"]
    size = len(e.content)
    fields = struct.pack(">QH", size, e.bits())
    messages, images = [], [bytes(e.content)]

    def add(message, answer):
        messages.append((message, answer))
        images.append(bytes(e.content))

    add(flags(3), b"")
    add(option(LIST), option_reply(LIST, SERVER, struct.pack(">I", 4) + b"file") + option_reply(LIST, ACK))
    add(option(INFO, asks(b"file", 3)), e.told(INFO, True))
    add(option(EXPORT_NAME, b"file"), fields)
    add(request(READ, 510, 4), e.read(510, 4))
    add(request(WRITE, 509, 6, data=b"across"), e.write(509, b"across"))
    add(request(FLUSH), reply())
    add(request(READ, 508, 8), e.read(508, 8))
    add(request(WRITE, 1000, 4, bits=FUA, data=b"safe"), e.write(1000, b"safe"))
    add(request(TRIM, 508, 8), reply())
    add(request(CACHE, 508, 8), reply())
    add(request(ZEROES, 512, 3, bits=FUA), e.write(512, bytes(3)))
    sent, wanted = b"", GREETING
    for place, (message, answer) in enumerate(messages):
        for cut in range(len(message)):
            runner.run(f"cut at {cut} of message {place}", "file", sent + message[:cut], wanted, status=4 if cut else 0, after=images[place])
        sent, wanted = sent + message, wanted + answer
    runner.run("not cut", "file", sent, wanted, after=bytes(e.content))
    runner.run("not cut, and ended", "file", sent + request(DISC), wanted, after=bytes(e.content))
    e = exports()["sparse"]
    messages = [
        (flags(3) + option(STRUCTURED), option_reply(STRUCTURED, ACK)),
        (option(LIST_META, queries(b"sparse", b"base:")), context(LIST_META, 0) + option_reply(LIST_META, ACK)),
        (option(SET_META, queries(b"sparse", b"base:allocation")), context(SET_META, 1) + option_reply(SET_META, ACK)),
        (option(GO, asks(b"sparse")), e.told(GO, structured=True)),
        (request(READ, 510, 4, bits=DF), e.chunks(510, 4, df=True)),
        (request(READ, 510, 2000), e.chunks(510, 2000)),
        (request(STATUS, 510, 3000), e.status(510, 3000)),
        (request(STATUS, 510, 3000, bits=REQ_ONE), e.status(510, 3000, True)),
    ]
    sent, wanted = b"", GREETING
    for place, (message, answer) in enumerate(messages):
        for cut in range(4 if place == 0 else 0, len(message)):
            runner.run(f"cut at {cut} of message {place} in chunks", "sparse", sent + message[:cut], wanted, status=0 if cut == (4 if place == 0 else 0) else 4)
        sent, wanted = sent + message, wanted + answer
    runner.run("not cut, in chunks", "sparse", sent + request(DISC), wanted)


def ahead(runner):
    """A client that sends 10,000 requests before it reads a reply: each is answered, in its turn, and nobody waits for ever."""
    for chunked in (False, True):
        dice, e = random.Random(5), exports()["file"]
        size = len(e.content)
        sent, wanted = begun_in_chunks(e) if chunked else begun(e)
        asked, told = [sent], [wanted]
        for cookie in range(10000):
            kind, offset = dice.choices((READ, WRITE, ZEROES, FLUSH), (80, 15, 4, 1))[0], dice.randrange(size)
            length = 0 if kind == FLUSH else dice.randrange(min(600, size - offset))
            data = dice.randbytes(length) if kind == WRITE else b""
            asked.append(request(kind, 0 if kind == FLUSH else offset, length, cookie, data=data))
            if kind == READ:
                told.append(e.chunks(offset, length, cookie) if chunked else e.read(offset, length)[:8] + struct.pack(">Q", cookie) + e.read(offset, length)[16:])
            else:
                e.content[offset : offset + length] = data if kind == WRITE else bytes(length)
                told.append(reply(cookie=cookie))
        sent_ahead(runner, f"10,000 requests ahead{', in chunks' if chunked else ''}", b"".join(asked), b"".join(told), bytes(e.content))


def sent_ahead(runner, label, sent, wanted, after):
    """The first reply is read where the client's writes have stood still for half a second, as nothing is read meanwhile."""
    open("F", "wb").write(exports()["file"].content)
    open("stack", "w").write(STACK)
    words = [runner.program, "nbd", "stack", "file", "R=ramp:8", "Z=zero:4", "F=rw:F"]
    served = subprocess.Popen(words, bufsize=0, stdin=subprocess.PIPE, stdout=subprocess.PIPE, stderr=subprocess.PIPE)
    at = 0

    def write():
        nonlocal at
        with served.stdin as it:
            while at < len(sent):
                at += os.write(it.fileno(), sent[at : at + 4096])

    limit, writer = threading.Timer(60, served.kill), threading.Thread(target=write, daemon=True)
    limit.start()
    writer.start()
    before, still = -1, 0
    while still < 10 and writer.is_alive():
        time.sleep(0.05)
        before, still = at, still + 1 if at == before else 0
    runner.count(f"{label}: the writes wait", at < len(sent), f"all {at} bytes were taken")
    with served.stdout, served.stderr:
        found, said = served.stdout.read(), served.stderr.read()
    writer.join(60)
    status = served.wait()
    limit.cancel()
    runner.count(label, found == wanted and status == 0 and not without_log(said), f"status {status}, {len(found)} of {len(wanted)} bytes, {said[:80]!r}")
    runner.count(f"{label}: the image", open("F", "rb").read() == after)


PATCHED = "p,,,rw,0 2 linear F 0,2 1 error,3 2 linear F 3,5 3 zero"


def small_replies():
    """A short reply of each kind of chunk over that device, the request for it, and the device as a write left it before."""
    e = Export("p", exports()["file"].content[: 5 * SECTOR] + bytes(3 * SECTOR), writable=True, lost=[(2, 3)], zeros=[(5, 8)])
    e.write(509, b"across")
    return e, {
        "NONE": (request(READ, 700, 0), e.chunks(700, 0)),
        "OFFSET_DATA": (request(READ, 507, 9), e.chunks(507, 9)),
        "OFFSET_HOLE": (request(READ, 2600, 700), e.chunks(2600, 700)),
        "ERROR_OFFSET": (request(READ, 1030, 9), e.chunks(1030, 9)),
        "BLOCK_STATUS": (request(STATUS, 500, 3000), e.status(500, 3000)),
    }


def gone_within(runner):
    """A client that goes away at each byte of a small reply: the write before it is complete, the one after it if it was begun."""
    open("patched", "w").write(PATCHED)
    e, replies = small_replies()
    sent, told = begun_in_chunks(e, True)
    sent, told = sent + request(WRITE, 509, 6, data=b"across"), told + reply()
    first = exports()["file"].content
    first[509:515] = b"across"
    second = bytearray(first)
    second[1:5] = b"next"
    for kind, (asked, answer) in replies.items():
        given, whole = sent + asked + request(WRITE, 1, 4, data=b"next"), told + answer
        for count in range(len(whole) - len(answer), len(whole) + 1):
            gone_behind(runner, f"gone within {kind}", given, whole + reply(), count, (bytes(first), bytes(second)), kind == "ERROR_OFFSET")
        for count in range(len(whole) - len(answer) - len(reply()), len(whole) + len(reply())):
            cut_behind(runner, f"cut within {kind}", given, whole + reply(), count, bytes(second if count >= len(whole) else first))


def gone_behind(runner, label, sent, whole, count, images, faulty):
    """The client takes so many bytes and closes both its ends; the service may have put more into the pipe by then. If it ends well,
    it tells whether one of the requests had a fault."""
    open("F", "wb").write(exports()["file"].content)
    served = subprocess.Popen([runner.program, "nbd", "patched", "p", "F=rw:F"], bufsize=0, stdin=subprocess.PIPE, stdout=subprocess.PIPE, stderr=subprocess.PIPE)
    limit = threading.Timer(60, served.kill)
    limit.start()
    with served.stderr:
        with served.stdout, served.stdin:
            served.stdin.write(sent)
            found = taken(served.stdout, count)
        said = served.stderr.read()
    status = served.wait(60)
    limit.cancel()
    told = faults_line(1, len(requests_of(sent))) if status == 3 else b""
    good = found == whole[:count] and status in (3 if faulty else 0, 1) and without_sentence(b"", without_log(said), status) == told
    runner.count(f"{label} after {count} bytes", good and open("F", "rb").read() in images[status != 1 :], f"status {status}, {said[:200]!r}")


def cut_behind(runner, label, sent, whole, count, after):
    """No more than so many bytes can be written: the output is a file that may have no more after the offset at which it begins."""
    start = 8 * SECTOR

    def limited():
        signal.signal(signal.SIGXFSZ, signal.SIG_IGN)
        resource.setrlimit(resource.RLIMIT_FSIZE, (start + count, start + count))

    open("F", "wb").write(exports()["file"].content)
    with open("out", "wb+") as out:
        out.seek(start)
        done = subprocess.run([runner.program, "nbd", "patched", "p", "F=rw:F"], input=sent, stdout=out, stderr=subprocess.PIPE, timeout=60, preexec_fn=limited)
        out.seek(start)
        found = out.read()
    good = found == whole[:count] and done.returncode == 1 and not without_log(done.stderr)
    runner.count(f"{label} after {count} bytes", good and open("F", "rb").read() == after, f"status {done.returncode}, {len(found)} bytes")
