"""Exchanges of the NBD protocol: the status of blocks."""
import os
import struct
import subprocess
import threading

from nbd_messages import (
    BLOCK, BLOCK_STATUS, DF, EINVAL, ENOMEM, Export, FAST_ZERO, FUA, GREETING, HOLE_AND_ZERO, LOOK, NO_HOLE, PART, READ,
    REQ_ONE, SECTOR, STATUS, begins_to_differ, begun_in_chunks, chunk, exports, failed, failed_at, request, without_log,
)
from verity import Tree, grown


def statuses(runner):
    """The status of blocks: at the ends of extents and within them, each field wrong in turn."""
    for name in ("low", "file", "holed", "sparse", "over"):
        e = exports()[name]
        size = len(e.content)
        sent, wanted = begun_in_chunks(e, True)
        for offset in sorted({0, 1, 511, 512, 513, 1023, 1024, 1025, 3583, 3584, 3585, 5119, 5120, size - 1, size, size + 1, 2**63, 2**64 - 1}):
            for length in (0, 1, 2, 511, 512, 513, 1024, 2560, 2561, size - offset, size - offset + 1, size, 2**32 - 1):
                if 0 <= length < 2**32:
                    sent += request(STATUS, offset, length) + request(STATUS, offset, length, bits=REQ_ONE)
                    wanted += e.status(offset, length) + e.status(offset, length, True)
        runner.run(f"status of {name}", name, sent + request(READ, 0, 8), wanted + e.chunks(0, 8))
        for bits in (0, FUA, NO_HOLE, DF, REQ_ONE, FUA | REQ_ONE, DF | REQ_ONE, FAST_ZERO, 0x8000, 0x8008):
            asked, told = begun_in_chunks(e, True)
            told += e.status(0, size, bool(bits & REQ_ONE)) if bits & ~(FUA | REQ_ONE) == 0 else failed(EINVAL)
            runner.run(f"status with flag {bits}", name, asked + request(STATUS, 0, size, bits=bits), told)
    # many extents: a reply has at most 1,024
    open("many", "w").write("z,,,ro,0 1500 zero;m,,,ro,0 3000 striped 2 1 R 0 /dev/mapper/z 0")
    many = Export("m", bytes(3000 * SECTOR), shared=False)
    sent, wanted = begun_in_chunks(many, True)
    for offset, length, count in ((0, 3000 * SECTOR, 1024), (700, 1024 * SECTOR, 1024), (SECTOR, 5 * SECTOR - 1, 5)):
        sent += request(STATUS, offset, length)
        ends = [min(offset + length, (offset // SECTOR + k + 1) * SECTOR) for k in range(count)]
        begins = [offset, *ends[:-1]]
        told = b"".join(struct.pack(">II", end - at, HOLE_AND_ZERO if at // SECTOR % 2 else 0) for at, end in zip(begins, ends))
        wanted += chunk(BLOCK_STATUS, struct.pack(">I", 1) + told)
    runner.serve("many extents", ["many", "m", "R=ramp:1500"], sent, wanted)
    # many runs: a reply joins at most 65,536, which are single sectors but for the `zero` line
    runs, first = 65536, 40000
    open("many", "w").write(f"m,,,ro,0 {first} striped 2 1 R 0 R 0,{first} 10 zero,{first + 10} {runs} striped 2 1 R 0 R 0")
    sent, wanted = begun_in_chunks(Export("m", bytes((first + 10 + runs) * SECTOR), shared=False), True)
    for sector, skipped, extents in ((0, 0, ((first, 0), (10, HOLE_AND_ZERO), (runs - first - 1, 0))), (first + 10, 7, ((runs, 0),))):
        at = sector * SECTOR + skipped
        told = b"".join(struct.pack(">II", count * SECTOR - (skipped if k == 0 else 0), kind) for k, (count, kind) in enumerate(extents))
        for bits in (0, REQ_ONE):
            sent += request(STATUS, at, (first + 10 + runs) * SECTOR - at, bits=bits)
            wanted += chunk(BLOCK_STATUS, struct.pack(">I", 1) + (told[:8] if bits else told))
    runner.serve("many runs", ["many", "m", f"R=ramp:{runs}"], sent, wanted)


def ignored_blocks(runner):
    """The status of a volume whose line ignores blocks of zeros: of good blocks, and where some are changed or can't be read."""
    data = bytearray(b"".join(struct.pack(">I", k + 1) for k in range(300 * BLOCK // 4)))
    # runs of zeros at the beginning, between data, over the end of a part and of a piece, at the end, and half a block in one of data
    for first, last in ((0, 3), (5, 6), (14, 18), (62, 67), (100, 164), (200, 201), (202, 203), (297, 300)):
        data[first * BLOCK : last * BLOCK] = bytes((last - first) * BLOCK)
    data[20 * BLOCK : 20 * BLOCK + BLOCK // 2] = bytes(BLOCK // 2)
    data, sectors = bytes(data), len(data) // SECTOR
    changed = bytearray(data)
    for at in (1, 62, 90, 102):
        changed[at * BLOCK + 7] ^= 1
    patched = "b,,,ro,0 496 linear D 0,496 16 error,512 208 linear D 512,720 8 error,728 1672 linear D 728;"
    for block in (SECTOR, BLOCK):
        tree = Tree(block, BLOCK, len(data) // block)
        placed, root = grown(tree, b"salt", [data[at : at + block] for at in range(0, len(data), block)])
        open("H", "wb").write(b"".join(placed[place] for place in range(sum(tree.levels))))
        line = f"0 {sectors} verity 1 %s H {block} {BLOCK} {len(data) // block} 0 sha256 {root.hex()} {b'salt'.hex()}"
        ignoring, label = line + " 1 ignore_zero_blocks", f"ignored blocks of {block} bytes"
        # of these only one isn't zeros: the others are ignored, and so their data aren't read
        for image, below, bad in ((data, "D", []), (changed, "D", [(720, 720 + block // SECTOR)]), (data, "/dev/mapper/b", [(720, 728)])):
            open("D", "wb").write(image)
            open("ignored", "w").write((patched if below != "D" else "") + "v,,,ro," + ignoring % below)
            ask_statuses(runner, f"{label} of {below}, {bad} lost", "ignored", Export("v", data, lost=bad, ignoring=[(0, sectors)]))
            if not bad:
                short_of_memory(runner, label, "ignored", Export("v", data, ignoring=[(0, sectors)]))
        shortened(runner, f"{label}, over a leaf that fails", Export("v", data, lost=[(164 * 8, 297 * 8)], ignoring=[(0, sectors)]))
        # without the option nothing is read
        open("D", "wb").write(data)
        open("plain", "w").write("v,,,ro," + line % "D")
        ask_statuses(runner, f"blocks of {block} bytes that aren't ignored", "plain", Export("v", data))
        # beside other lines, of which one can't be read
        lines = "0 3 linear D 3,3 1301 linear /dev/mapper/v 5,1304 40 zero,1344 496 linear /dev/mapper/v 1306,1840 1 error,1841 9 linear /dev/mapper/v 9"
        open("mixed", "w").write("v,,,ro," + ignoring % "D" + ";m,,,ro," + lines)
        parts = [data[first * SECTOR : (first + count) * SECTOR] for first, count in ((3, 3), (5, 1301), (1306, 496), (9, 9))]
        content = parts[0] + parts[1] + bytes(40 * SECTOR) + parts[2] + bytes(SECTOR) + parts[3]
        e = Export("m", content, lost=[(1840, 1841)], zeros=[(1304, 1344)], ignoring=[(3, 1304), (1344, 1840), (1841, 1850)])
        ask_statuses(runner, f"{label} beside others", "mixed", e)


def shortened(runner, label, e):
    """The image has lost all bytes after its 100th block by the time of the first request; its zeros are reported nevertheless."""
    open("D", "wb").write(e.content)
    sent, told = begun_in_chunks(e, True)
    asked, wanted = b"", b""
    for at in range(0, len(e.content), PART):
        for bits in (0, REQ_ONE):
            asked += request(STATUS, at, len(e.content) - at, bits=bits)
            wanted += e.status(at, len(e.content) - at, bool(bits))
    open("short", "w").write(open("ignored").read().split(";")[-1].replace("/dev/mapper/b", "D"))
    with subprocess.Popen([runner.program, "nbd", "--quiet", "short", "v", "D=ro:D", "H=ro:H"], bufsize=0, stdin=subprocess.PIPE, stdout=subprocess.PIPE) as served:
        limit = threading.Timer(60, served.kill)
        limit.start()
        served.stdin.write(sent)
        found = b""
        while len(found) < len(told) and (more := served.stdout.read(len(told) - len(found))):
            found += more
        os.truncate("D", 100 * BLOCK)
        served.stdin.write(asked)
        served.stdin.close()
        found += served.stdout.read()
        status = served.wait(60)
        limit.cancel()
    at = begins_to_differ(found, told + wanted)
    runner.count(label, found == told + wanted and status == 0, f"differs at {at} of {len(told + wanted)}, status {status}")


def short_of_memory(runner, label, stack, e):
    """Each allocation fails in turn: the status is reported nevertheless, as data if there was no memory for what is read, or is ENOMEM."""
    library = os.path.join(os.getcwd(), "refuse.so")
    source = os.path.join(os.path.dirname(os.path.realpath(__file__)), "refuse_alloc.c")
    subprocess.run(["cc", "-shared", "-fPIC", "-O2", "-o", library, source, "-ldl"], check=True)
    sent, told = begun_in_chunks(e, True)
    size = len(e.content)
    unread = chunk(BLOCK_STATUS, struct.pack(">III", 1, min(size, LOOK), 0))
    answers = [e.status(0, size), unread, failed(ENOMEM)]
    for number in range(1, 10000):
        if os.path.exists("met"):
            os.remove("met")
        more = {"LD_PRELOAD": library, "REFUSE": str(number), "REFUSE_MET": "met"}
        words = [runner.program, "nbd", stack, e.name, "D=ro:D", "H=ro:H"]
        done = subprocess.run(words, input=sent + request(STATUS, 0, size) + request(READ, 0, 8), env={**os.environ, **more}, capture_output=True, timeout=60)
        if not os.path.exists("met"):
            break
        place = failed_at(ENOMEM, 0)
        ends = [told + answer + e.chunks(0, 8) for answer in answers] + [told + answers[0] + place]
        good = done.stdout in ends and done.returncode == 0 or (done.stdout, done.returncode) in ((b"", 1), (GREETING, 1))
        said = b"" if done.stdout else b"no memory\n"
        runner.count(f"{label}: allocation {number} fails", good and without_log(done.stderr) == said, f"status {done.returncode}, {done.stdout[-40:]!r}, {done.stderr[:80]!r}")
    runner.count(f"{label}: some allocations failed", number > 1)


def ask_statuses(runner, label, stack, e):
    """Each status at the ends of blocks, looks and lines, then a walk over the whole export, extent by extent or reply by reply."""
    size = len(e.content)
    sent, wanted = begun_in_chunks(e, True)
    ends = [low * SECTOR for low, _ in (*e.zeros, *e.ignoring)] + [high * SECTOR for _, high in (*e.zeros, *e.ignoring)]
    places = {0, 1, BLOCK, 3 * BLOCK, 5 * BLOCK + 1, PART, LOOK, 90 * BLOCK, 100 * BLOCK - SECTOR, 131 * BLOCK, size - 1, size - BLOCK}
    for at in sorted({place + step for place in (*places, *ends) for step in (-1, 0, 513)}):
        for length in (1, 511, SECTOR, BLOCK, BLOCK + 1, PART, LOOK - 1, LOOK, LOOK + 9, size - at, size - at + 1):
            if at >= 0 and 0 <= length < 2**32:
                sent += request(STATUS, at, length) + request(STATUS, at, length, bits=REQ_ONE)
                wanted += e.status(at, length) + e.status(at, length, True)
    for bits in (0, REQ_ONE):
        at = 0
        while at < size:
            answer = e.status(at, size - at, bool(bits))
            sent, wanted = sent + request(STATUS, at, size - at, bits=bits), wanted + answer
            at += sum(count for count, in struct.iter_unpack(">I4x", answer[24:]))
    runner.serve(label, [stack, e.name, "D=ro:D", "H=ro:H"], sent + request(READ, 0, 8), wanted + e.chunks(0, 8))
