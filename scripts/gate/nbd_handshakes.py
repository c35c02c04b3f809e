"""Exchanges of the NBD protocol: options and exports."""
import struct

from nbd_messages import (
    ABORT, ACK, DISC, EINVAL, EPERM, EXPORT_NAME, EXTENDED, FLUSH, GO, GREETING, INFO, INVALID, LIST, LIST_META, MOST_OPTIONS, RAMP, READ, SERVER,
    SET_META, STARTTLS, STATUS, STRUCTURED, TOO_BIG, UNKNOWN, UNSUPPORTED, WRITE, asks, begun, context, exports, failed, flags, option,
    option_reply, queries, reply, request,
)


def handshakes(runner):
    """Options, one after another and each wrong in turn."""
    e = exports()["low"]
    for bits in range(4):
        sent, wanted = begun(e, bits)
        runner.run(f"flags {bits}", "low", sent + request(DISC), wanted)
    for bits in (4, 8, 1 << 16, 1 << 31, 7):
        runner.run(f"flags {bits}", "low", flags(bits) + option(ABORT), GREETING, status=4)
    runner.run("default export", "low", flags(3) + option(EXPORT_NAME) + request(DISC), begun(e)[1])
    for name in (b"lo", b"low ", b"Low", b"kept", b"x" * 4096, b"low\0"):
        runner.run(f"export {name[:8]}", "low", flags(3) + option(EXPORT_NAME, name), GREETING, status=4)
    runner.run("abort", "low", flags(3) + option(ABORT), GREETING + option_reply(ABORT, ACK))
    runner.run("abort with data", "low", flags(1) + option(ABORT, b"bye"), GREETING + option_reply(ABORT, ACK))
    listed = option_reply(LIST, SERVER, struct.pack(">I", 3) + b"low") + option_reply(LIST, ACK)
    runner.run("list", "low", flags(3) + option(LIST) + option(ABORT), GREETING + listed + option_reply(ABORT, ACK))
    runner.run("list with data", "low", flags(3) + option(LIST, b"x") + option(LIST), GREETING + option_reply(LIST, INVALID) + listed)
    for number in (0, 4, STARTTLS, EXTENDED, 12, 0x7FFFFFFF, 0xFFFFFFFF):
        for data in (b"", b"whatever"):
            runner.run(f"option {number}", "low", flags(3) + option(number, data) + option(LIST), GREETING + option_reply(number, UNSUPPORTED) + listed)
    for number in (INFO, GO):
        for name in (b"low", b""):
            for facts in ((), (0,), (1,), (3,), (0, 1, 2, 3), (256,), (768,), (1, 3), (3, 1, 1), (2,) * 40):
                sizes, named, described = 3 in facts, 1 in facts, 2 in facts
                tail, end = (request(READ, 0, 4), reply(data=RAMP[:4])) if number == GO else (option(ABORT), option_reply(ABORT, ACK))
                runner.run(f"{number} {name} {facts}", "low", flags(3) + option(number, asks(name, *facts)) + tail, GREETING + e.told(number, sizes, named=named, described=described) + end)
        for name in (b"lo", b"loww", b"kept", b"\0" * 3):
            runner.run(f"{number} of {name}", "low", flags(3) + option(number, asks(name)) + option(LIST), GREETING + option_reply(number, UNKNOWN) + listed)
        whole = asks(b"low", 3)
        bad = [whole[:k] for k in range(len(whole))] + [whole + b"\0", struct.pack(">I", 4) + whole[4:], struct.pack(">I", 2**32 - 1) + whole[4:]]
        bad += [whole[:7] + struct.pack(">H", n) + whole[9:] for n in (0, 2, 65535)]
        for data in bad:
            runner.run(f"{number} with {data.hex()}", "low", flags(3) + option(number, data) + option(LIST), GREETING + option_reply(number, INVALID) + listed)
    for length in (1, 65535, 65536, 65537, 1 << 20):
        kind = UNSUPPORTED if length <= 65536 else TOO_BIG
        runner.run(f"option of {length} bytes", "low", flags(3) + option(99, bytes(length)) + option(LIST), GREETING + option_reply(99, kind) + listed)
        runner.run(f"name of {length} bytes", "low", flags(3) + option(EXPORT_NAME, bytes(length)), GREETING, status=4)
        runner.run(f"abort of {length} bytes", "low", flags(3) + option(ABORT, bytes(length)) + option(LIST), GREETING + option_reply(ABORT, ACK))
    for k in range(8):
        wrong = bytearray(option(LIST))
        wrong[k] ^= 1
        runner.run(f"option magic at {k}", "low", flags(3) + bytes(wrong), GREETING, status=4)
    opened = option(GO, asks(b"low")) + request(DISC)
    for count in (MOST_OPTIONS - 1, MOST_OPTIONS):
        sent, told = flags(3) + option(LIST) * count, GREETING + listed * count
        good = count < MOST_OPTIONS
        runner.run(f"{count} options and GO", "low", sent + opened, told + (e.told(GO) if good else b""), status=0 if good else 4)
        runner.run(f"{count} options", "low", sent, told)
    sent, answer = option(GO, asks(b"lo")), option_reply(GO, UNKNOWN)
    runner.run("options that name no export", "low", flags(3) + sent * (MOST_OPTIONS + 1), GREETING + answer * MOST_OPTIONS, status=4)
    sent, answer = option(99, bytes(65537)), option_reply(99, TOO_BIG)
    runner.run("options with too much data", "low", flags(3) + sent * (MOST_OPTIONS + 1), GREETING + answer * MOST_OPTIONS, status=4)
    kept = exports()["kept"]
    runner.run("description", "kept", flags(3) + option(INFO, asks(b"", 2)), GREETING + kept.told(INFO, described=True))
    runner.run("read only", "kept", flags(3) + option(GO, asks(b"kept", 3)), GREETING + kept.told(GO, True))


def many_exports(runner):
    """Each device is an export: LIST names them in the order of the stack, and a client is served the one that it names."""
    found = exports()
    listed = b"".join(option_reply(LIST, SERVER, struct.pack(">I", len(name)) + name.encode()) for name in found)
    listed += option_reply(LIST, ACK)
    runner.run("list of all", None, flags(3) + option(LIST) + option(LIST, b"x") + option(ABORT), GREETING + listed + option_reply(LIST, INVALID) + option_reply(ABORT, ACK))
    for name, e in found.items():
        sent, wanted = begun(e)
        asked, told = request(READ, 0, 700) + request(READ, 4000, 96) + request(READ, 4000, 97), e.read(0, 700) + e.read(4000, 96) + e.read(4000, 97)
        runner.run(f"EXPORT_NAME of {name} among all", None, sent + asked, wanted + told)
        for number in (INFO, GO):
            opened = option(number, asks(name.encode(), 3)) + (asked if number == GO else option(LIST))
            runner.run(f"{number} of {name} among all", None, flags(3) + opened, GREETING + e.told(number, True) + (told if number == GO else listed))
    # the empty name is that of the first export
    first = next(iter(found.values()))
    for number in (INFO, GO):
        runner.run(f"{number} of the first among all", None, flags(3) + option(number, asks(b"", 1)) + (option(LIST) if number == INFO else b""), GREETING + first.told(number, named=True) + (listed if number == INFO else b""))
    for name in (b"lo", b"loww", b"low\0", b"File", b"R", b"n" * 4097):
        for number in (INFO, GO):
            runner.run(f"{number} of {name[:8]} among all", None, flags(3) + option(number, asks(name)) + option(LIST), GREETING + option_reply(number, UNKNOWN) + listed)
        runner.run(f"EXPORT_NAME of {name[:8]} among all", None, flags(3) + option(EXPORT_NAME, name), GREETING, status=4)
    runner.run("a name of 65,537 bytes among all", None, flags(3) + option(EXPORT_NAME, bytes(65537)), GREETING, status=4)
    e = found["file"]
    sent, wanted = flags(3) + option(INFO, asks(b"low")) + option(GO, asks(b"file")), GREETING + found["low"].told(INFO) + e.told(GO)
    for offset, length in ((0, 5), (509, 6), (2048, 2048)):
        data = bytes((3 * offset + k) % 256 for k in range(length))
        sent += request(WRITE, offset, length, data=data) + request(READ, 0, 4096)
        wanted += e.write(offset, data) + e.read(0, 4096)
    runner.run("a write to one of all", None, sent + request(FLUSH) + request(DISC), wanted + reply(), after=bytes(e.content))
    asked, told = begun(found["kept"])
    runner.run("a write to one of all that is ro", None, asked + request(WRITE, 0, 1, data=b"x"), told + reply(EPERM))


def contexts(runner):
    """Metadata contexts: what is queried, each length wrong in turn, and what a SET leaves selected."""
    e = exports()["sparse"]
    agreed, told = flags(3) + option(STRUCTURED), GREETING + option_reply(STRUCTURED, ACK)
    opened, begins = option(GO, asks(b"sparse")), e.told(GO, structured=True)
    for number in (LIST_META, SET_META):
        whole = queries(b"sparse", b"base:allocation")
        for data in (b"", whole):
            runner.run(f"{number} without chunks", "sparse", flags(3) + option(number, data) + option(ABORT), GREETING + option_reply(number, INVALID) + option_reply(ABORT, ACK))
        rows = [((), False), ((b"base:allocation",), True), ((b"base:",), False), ((b"base:allocatio",), False), ((b"base:allocation2",), False)]
        rows += [((b"qemu:dirty-bitmap:x", b"base:allocation"), True), ((b"base:allocation", b"other:"), True), ((b"Base:allocation",), False)]
        rows += [((b"base:allocation",) * 3, True), ((b"x:",) * 40, False), ((b"x:",) * 40 + (b"base:allocation",), True)]
        # queries without a namespace
        rows += [(wanted, None) for wanted in ((b"",), (b"base",), (b":",), (b":allocation",), (b"base:allocation", b"x"), (b"x",) * 40 + (b"base:allocation",))]
        for wanted, named in rows:
            if number == LIST_META and named is not None:
                named = named or wanted in ((), (b"base:",))
            for name in (b"sparse", b""):
                answer = option_reply(number, INVALID) if named is None else (context(number, 0 if number == LIST_META else 1) if named else b"") + option_reply(number, ACK)
                chosen = named and number == SET_META
                after = e.status(0, 5632) if chosen else failed(EINVAL)
                runner.run(f"{number} of {wanted[:2]}", "sparse", agreed + option(number, queries(name, *wanted)) + opened + request(STATUS, 0, 5632), told + answer + begins + after)
        for name in (b"spars", b"sparse2", b"low", b"\0"):
            runner.run(f"{number} for {name}", "sparse", agreed + option(number, queries(name, b"base:allocation")) + option(ABORT), told + option_reply(number, UNKNOWN) + option_reply(ABORT, ACK))
        whole = queries(b"sparse", b"base:allocation", b"x:y")
        bad = [whole[:k] for k in range(len(whole))] + [whole + b"\0", whole + bytes(4)]
        bad += [struct.pack(">I", n) + whole[4:] for n in (0, 5, 7, len(whole), 2**32 - 1)]
        bad += [whole[:10] + struct.pack(">I", n) + whole[14:] for n in (0, 1, 3, 2**32 - 1)]
        bad += [whole[:14] + struct.pack(">I", n) + whole[18:] for n in (0, 14, 16, 22, 23, 2**32 - 1)]
        for data in bad:
            runner.run(f"{number} with {data.hex()}", "sparse", agreed + option(number, data) + option(ABORT), told + option_reply(number, INVALID) + option_reply(ABORT, ACK))
    good, chosen = option(SET_META, queries(b"sparse", b"base:allocation")), context(SET_META, 1) + option_reply(SET_META, ACK)
    asked = request(STATUS, 0, 5632)
    # the last SET counts, one that fails too; nothing else unselects
    unselects = [
        (option(SET_META, queries(b"sparse")), option_reply(SET_META, ACK)),
        (option(SET_META, queries(b"sparse", b"base:")), option_reply(SET_META, ACK)),
        (option(SET_META, b"x"), option_reply(SET_META, INVALID)),
        (option(SET_META, queries(b"sparse", b"base:allocation", b"x")), option_reply(SET_META, INVALID)),
        (option(SET_META, queries(b"none", b"base:allocation")), option_reply(SET_META, UNKNOWN)),
        (option(SET_META, bytes(65537)), option_reply(SET_META, TOO_BIG)),
    ]
    for message, answer in unselects:
        runner.run("unselected", "sparse", agreed + good + message + opened + asked, told + chosen + answer + begins + failed(EINVAL))
        runner.run("selected again", "sparse", agreed + message + good + opened + asked, told + answer + chosen + begins + e.status(0, 5632))
    keeps = [
        (option(LIST_META, queries(b"sparse")), context(LIST_META, 0) + option_reply(LIST_META, ACK)),
        (option(LIST_META, bytes(65537)), option_reply(LIST_META, TOO_BIG)),
        (option(STRUCTURED), option_reply(STRUCTURED, ACK)),
        (option(STRUCTURED, b"x"), option_reply(STRUCTURED, INVALID)),
        (option(99, bytes(65537)), option_reply(99, TOO_BIG)),
        (option(INFO, asks(b"sparse")), e.told(INFO, structured=True)),
    ]
    for message, answer in keeps:
        runner.run("still selected", "sparse", agreed + good + message + opened + asked, told + chosen + answer + begins + e.status(0, 5632))
    low = exports()["low"]
    both = agreed + option(SET_META, queries(b"low", b"base:allocation"))
    runner.run("selected of another export", None, both + opened + asked, told + chosen + begins + failed(EINVAL))
    runner.run("selected of this one", None, both + option(GO, asks(b"low")) + request(STATUS, 0, 4096), told + chosen + low.told(GO, structured=True) + low.status(0, 4096))
