"""Exchanges of the NBD protocol: calls of the system that fail, and services that are refused."""
import os
import subprocess

from nbd_messages import (
    CACHE, DF, EIO, ENOMEM, FLUSH, FUA, GREETING, READ, SECTOR, STACK, STATUS, WRITE, ZEROES, begun, begun_in_chunks, counts_of, exports,
    failed, failed_at, faults_line, flags, log_of, reason_of, reply, request, start_of, without_log,
)
from sentences import without_sentence


def is_in_one_sector(offset, length):
    """Whether bytes lie in one sector: if they can't be read once, they aren't read again."""
    return offset // SECTOR == (offset + length - 1) // SECTOR


def talks(chunked, failing=None, error=EIO):
    """What is written in an exchange over the file, where the request of that number fails and does nothing. A device whose sync
    failed stays failed, so later flushes fail too."""
    e = exports()["file"]
    asked = [("write", 509, b"across"), ("flush",), ("read", 508, 8), ("write", 1024, bytes(range(256)) * 4), ("flush",), ("zeroes", 1536, 512), ("read", 0, 4096)]
    asked += [("cache", 5, 700), ("cache", 520, 9)]
    if chunked:
        asked += [("whole", 5, 700), ("sector", 520, 9), ("status", 5, 4000)]
    sent, wanted = begun_in_chunks(e, True) if chunked else begun(e)
    for number, (kind, *rest) in enumerate(asked):
        if kind == "write":
            sent += request(WRITE, rest[0], len(rest[1]), data=rest[1])
            answer = reply(error) if number == failing else e.write(*rest)
        elif kind == "zeroes":
            sent += request(ZEROES, *rest)
            answer = reply(error) if number == failing else e.write(rest[0], bytes(rest[1]))
        elif kind == "flush":
            sent += request(FLUSH)
            fails = number == failing or error == EIO and failing is not None and asked[failing][0] == "flush" and failing < number
            answer = reply(error) if fails else reply()
        elif kind == "cache":
            sent += request(CACHE, *rest)
            answer = reply(error) if number == failing and (error == ENOMEM or is_in_one_sector(*rest)) else e.cache(*rest)
        elif kind == "status":
            sent += request(STATUS, *rest)
            answer = failed(error, kind=b"Device") if number == failing else e.status(*rest)
        elif kind == "whole":
            sent += request(READ, *rest, bits=DF)
            # a piece that failed once is read again
            answer = failed(error, kind=b"Device") if number == failing and error == ENOMEM else e.chunks(*rest, df=True)
        elif kind == "sector":
            sent += request(READ, *rest)
            answer = failed_at(error, rest[0], kind=b"Device") if number == failing else e.chunks(*rest)
        elif chunked:
            # a piece that failed once is sent in smaller pieces
            sent += request(READ, *rest)
            answer = e.chunks(*rest, again=number == failing)
        else:
            sent += request(READ, *rest)
            answer = reply(error) if number == failing and error == ENOMEM else e.read(*rest)
        wanted += answer
    return sent, wanted, bytes(e.content), asked


def lost_by(asked, failing):
    """What may be reported where the request of that number fails: the sector of a request, and None for each flush. A piece of a READ
    of several sectors is read again, and goes well. Of a write a sector is lost in which it begins or ends, or the piece."""
    kind, *rest = asked[failing]
    if kind == "flush":
        return [[None for later, *_ in asked[failing:] if later == "flush"]]
    if kind in ("read", "whole") or kind == "cache" and not is_in_one_sector(*rest):
        return [[]]
    first = rest[0] // SECTOR
    ends = [(rest[0] + len(rest[1])) // SECTOR] if kind == "write" and (rest[0] + len(rest[1])) % SECTOR else []
    return [[it] for it in dict.fromkeys([first, *ends])]


def forced(runner):
    """Writes with FUA where each sync fails in turn: the reply is that of an error, and comes after the write, which stays. The
    device stays failed, though each later sync of the system is good: so do all later replies to such writes, and the end."""
    library = os.path.join(os.getcwd(), "fail.so")
    source = os.path.join(os.path.dirname(os.path.realpath(__file__)), "fail_calls.c")
    subprocess.run(["cc", "-shared", "-fPIC", "-O2", "-o", library, source, "-ldl"], check=True)
    open("stack", "w").write(STACK)
    e = exports()["file"]
    sent, told = begun(e)
    # offset, length, what is written (zeros where it is None), and whether with FUA
    rows = [(512, 1024, b"w", True), (509, 6, b"x", True), (0, 700, None, True), (3000, 8, b"y", False), (2048, 512, None, True), (3583, 1, b"z", True), (4000, 96, b"v", False)]
    put, syncs, answers = 0, [], []
    for number, (offset, length, letter, is_forced) in enumerate(rows):
        data = letter * length if letter else bytes(length)
        sent += request(WRITE, offset, length, bits=is_forced and FUA, data=data) if letter else request(ZEROES, offset, length, bits=is_forced and FUA)
        sent += request(READ, 0, 8 * SECTOR)
        put += (offset + length - 1) // SECTOR - offset // SECTOR + 1
        syncs += [(put, 2 * number)] * is_forced
        answers += [e.write(offset, data), e.read(0, 8 * SECTOR)]
    syncs.append((put, None))
    found = 0
    for number in range(1, 10000):
        open("F", "wb").write(exports()["file"].content)
        if os.path.exists("met"):
            os.remove("met")
        more = {"LD_PRELOAD": library, "FAIL": str(number), "FAIL_KIND": "device", "FAIL_MET": "met"}
        words = [runner.program, "nbd", "stack", "file", "R=ramp:8", "Z=zero:4", "F=rw:F"]
        done = subprocess.run(words, input=sent, env={**os.environ, **more}, capture_output=True, timeout=60)
        if not os.path.exists("met"):
            break
        call = open("met").read().split()
        if call[0] != "sync" or found == len(syncs):
            found += call[0] == "sync"
            continue
        put, place = syncs[found]
        found += 1
        # the sync at the end is that of the third binding
        failing = [later for _, later in syncs[found - 1 :]]
        wanted = told + b"".join(reply(EIO) if k in failing else it for k, it in enumerate(answers))
        good = done.stdout == wanted and done.returncode == 3 and without_sentence(b"", without_log(done.stderr), 3) == b"fault 3 Device 3\n" and int(call[2]) == put
        runner.count(f"sync {found} fails", good, f"status {done.returncode}, {len(done.stdout)} of {len(wanted)} bytes, after {call[2]} sectors of {put}")
        runner.count(f"sync {found} fails: the image", open("F", "rb").read() == bytes(e.content))
    runner.count("each sync failed", found == len(syncs), f"{found} of {len(syncs)}")


def failures(runner):
    for chunked in (False, True):
        failures_of(runner, chunked)


def device_ends(asked, chunked, synced):
    """How the exchange may end where a call on the device fails: the output, the status, the file, and what standard error has but the
    sentence. A failed sync is one of a flush, and of the end's, or of the end's alone; the file is the third binding."""
    e, ends = exports()["file"], []
    for failing in [k for k, it in enumerate(asked) if (it[0] == "flush") == synced] + [None] * synced:
        _, told, left, _ = talks(chunked, failing)
        for lost in [[]] if failing is None else lost_by(asked, failing):
            line = b"fault 3 Device 3\n" if synced else faults_line(1, len(asked)) if lost else b""
            counts = counts_of(talks(chunked)[0], len(e.content), True)
            log = start_of([e]) + log_of("file", counts, lost, b"Device 3", reason_of(talks(chunked)[0]))
            ends.append((told, 3 if line else 0, left, log + line))
    return ends


def failures_of(runner, chunked):
    """Each call of the system, and each allocation, fails in turn: the request that met it says so, and the others nothing."""
    library = os.path.join(os.getcwd(), "fail.so")
    sources = [os.path.join(os.path.dirname(os.path.realpath(__file__)), it) for it in ("fail_calls.c", "refuse_alloc.c")]
    subprocess.run(["cc", "-shared", "-fPIC", "-O2", "-o", library, *sources, "-ldl"], check=True)
    open("stack", "w").write(STACK)
    sent, plain, after, asked = talks(chunked)
    for kind in ("device", "memory", "input", "output", "errors"):
        for number in range(1, 10000):
            open("F", "wb").write(exports()["file"].content)
            if os.path.exists("met"):
                os.remove("met")
            names = ("REFUSE", "REFUSE_MET") if kind == "memory" else ("FAIL", "FAIL_MET")
            more = {"LD_PRELOAD": library, names[0]: str(number), names[1]: "met", **({} if kind == "memory" else {"FAIL_KIND": kind})}
            words = [runner.program, "nbd", "stack", "file", "R=ramp:8", "Z=zero:4", "F=rw:F"]
            done = subprocess.run(words, input=sent, env={**os.environ, **more}, capture_output=True, timeout=60)
            if not os.path.exists("met"):
                break
            met = open("met").read()
            found, said = (done.stdout, done.returncode, open("F", "rb").read()), b""
            errors = without_sentence(b"", done.stderr, done.returncode)
            if kind == "device":
                good = (*found, errors) in device_ends(asked, chunked, met.startswith("sync"))
                errors = b""
            elif kind == "errors":
                good, errors = found == (plain, 0, after), b""
            elif kind == "memory":
                ends = [(told, 0, left) for _, told, left, _ in (talks(chunked), *(talks(chunked, k, ENOMEM) for k in range(len(asked))))]
                if found[:2] == (b"", 1):
                    good, said = True, b"no memory\n"
                else:
                    good = found in ends or found[:2] == (GREETING, 1)
            else:
                good = done.returncode == 1 and plain.startswith(done.stdout)
            runner.count(f"{kind} {number} fails ({met.strip()})", good and errors is not None and without_log(errors) == said, f"status {done.returncode}, {len(done.stdout)} of {len(plain)} bytes, {done.stdout[-40:]!r}, {done.stderr[:80]!r}")
        runner.count(f"{kind}: some failed", number > 1)


def refusals(runner):
    """What isn't served at all says so on standard error, and nothing to the client."""
    for name in ("none", "R", ""):
        runner.run(f"device {name}", name, flags(3), b"", status=1, told=b"refused 1 NoSuchDevice\n")
