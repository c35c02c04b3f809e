#!/usr/bin/env python3
"""Tries `dmstack nbd` with the NBD clients that are installed.

nbd_clients.py [--no-speed] [PROGRAM]: copies devices out with nbdcopy and qemu-img and compares them, with 20 clients at once
(behind socat, and behind systemd-socket-activate), copies an image in through a `crypt` line and reads it back by another
stack, writes bytes and zeros with qemu-io across the ends of sectors, with FUA too, reads a verity volume with one changed
block, also by chunks, and single bytes in each strict mode of libnbd, copies each device of a stack out by its name, looks at
the maps of a sparse stack and of a volume with ignored zeros, that copies of them stay sparse, and that reads tell of holes,
looks by strace at what is synced when a write with FUA or a flush is answered, makes, fills and checks a file system through a
`crypt` line, and prints the speed over each kind of line, over four connections and over one, beside nbdkit's and beside
`scan`'s. What isn't installed, or not allowed (sockets, ptrace, FUSE), is named and left out, and where nothing is left the
status is 0 too (Debian: libnbd-bin, python3-libnbd, nbdfuse, qemu-utils, socat, nbdkit, strace, e2fsprogs, fuse3).
"""
import argparse
import json
import os
import random
import shutil
import subprocess
import sys
import tempfile
import time

sys.dont_write_bytecode = True

import nbd_served  # noqa: E402
from nbd_file_system import file_system_copied, file_system_mounted  # noqa: E402
from nbd_served import Served, attempt, encrypted, libnbd, needs, run, say, volume, wait_until_free, words_for  # noqa: E402
from nbd_speed import speed  # noqa: E402
from nbd_syncs import syncs  # noqa: E402

BLOCK = 4096
CLIENTS = 20


def whole(label, words, wanted):
    with Served(words) as uri:
        for client in ("nbdinfo", "nbdcopy", "qemu-img"):
            if not shutil.which(client):
                print(f"{client} isn't installed")
        if shutil.which("nbdinfo"):
            size = run("nbdinfo", "--size", uri).stdout.decode().strip()
            say(f"{label}: nbdinfo", size == str(len(wanted)), size)
        if shutil.which("nbdcopy"):
            done = run("nbdcopy", uri, "copied")
            say(f"{label}: nbdcopy", done.returncode == 0 and open("copied", "rb").read() == wanted, done.stderr.decode())
        if shutil.which("qemu-img"):
            done = run("qemu-img", "convert", "-f", "raw", "-O", "raw", "nbd:unix:" + uri.split("=")[1], "converted")
            say(f"{label}: qemu-img", done.returncode == 0 and open("converted", "rb").read() == wanted, done.stderr.decode())


def clients_at_once(data, words, activated=False):
    """Clients that all connect at the same time each copy the whole device."""
    needs("nbdcopy")
    with Served(words, activated) as uri:
        copies = [f"copy{it}" for it in range(CLIENTS)]
        clients = [subprocess.Popen(["nbdcopy", uri, it], stderr=subprocess.DEVNULL) for it in copies]
        failed = [it.wait() for it in clients if it.wait() != 0]
        same = sum(os.path.exists(it) and open(it, "rb").read() == data for it in copies)
        how = "systemd-socket-activate" if activated else "socat"
        say(f"{CLIENTS} clients at once, by {how}", not failed and same == CLIENTS, f"{same} equal copies")
    for it in copies:
        os.remove(it)


def each_of_all(data, bindings):
    """Each device of a stack is listed in its order and copied out by its name; another name is none."""
    size = len(data) // 512
    open("both", "w").write(open("verity").read() + f";l,,,ro,0 {size // 2} linear D 0;z,,,ro,0 {size} zero")
    wanted = {"v": data, "l": data[: len(data) // 2], "z": bytes(len(data))}
    with Served([nbd_served.program, "nbd", "--all", os.path.abspath("both"), *bindings]) as uri:
        socket = uri.split("=")[1]
        if shutil.which("nbdinfo"):
            told = json.loads(run("nbdinfo", "--list", "--json", uri).stdout or "{}")
            names = [it["export-name"] for it in told.get("exports", [])]
            say("all: nbdinfo --list", names == list(wanted), str(names))
            say("all: another name", run("nbdinfo", f"nbd+unix:///other?socket={socket}").returncode != 0)
        if shutil.which("nbdcopy"):
            for name, content in wanted.items():
                done = run("nbdcopy", f"nbd+unix:///{name}?socket={socket}", "copied")
                say(f"all: nbdcopy of {name}", done.returncode == 0 and open("copied", "rb").read() == content, done.stderr.decode())
        if shutil.which("qemu-img"):
            done = run("qemu-img", "convert", "-f", "raw", "-O", "raw", f"nbd:unix:{socket}:exportname=v", "converted")
            say("all: qemu-img", done.returncode == 0 and open("converted", "rb").read() == data, done.stderr.decode())
            # it sends the empty name, which means the first device
            done = run("qemu-img", "info", "--output=json", f"nbd:unix:{socket}")
            say("all: qemu-img without a name", json.loads(done.stdout or "{}").get("virtual-size") == len(data), done.stderr.decode())


def holes_are_kept():
    """Whether the file system here has holes."""
    with open("hollow", "wb") as file:
        file.truncate(1 << 20)
    return os.stat("hollow").st_blocks * 512 < 1 << 20


def copies_of(uri):
    """The clients that copy a device out, with their words."""
    return [("nbdcopy", ["nbdcopy", uri, "thin"]), ("qemu-img", ["qemu-img", "convert", "-f", "raw", "-O", "raw", "nbd:unix:" + uri.split("=")[1], "thin"])]


def try_copies(label, uri, wanted, room):
    """Each client's copy has these bytes, and where the file system keeps holes takes no more room."""
    for client, words in copies_of(uri):
        if shutil.which(client):
            done = run(*words)
            say(f"{label}: {client}", done.returncode == 0 and open("thin", "rb").read() == wanted, done.stderr.decode())
            if holes_are_kept():
                taken = os.stat("thin").st_blocks * 512
                say(f"{label}: {client} leaves holes", taken <= room, str(taken))
            os.remove("thin")


def sparse():
    """A stack with holes: its map is told, and copies of it have holes there."""
    data = random.Random(9).randbytes(2 << 20)
    open("part", "wb").write(data)
    open("holes", "w").write("s,,,ro,0 2048 linear D 0,2048 100000 zero,102048 2048 linear D 2048,104096 26976 zero")
    wanted = data[: 1 << 20] + bytes(100000 * 512) + data[1 << 20 :] + bytes(26976 * 512)
    extents = [[0, 2048, 0], [2048, 100000, 3], [102048, 2048, 0], [104096, 26976, 3]]
    with Served(words_for("holes", "s", "D=ro:" + os.path.abspath("part"))) as uri:
        if shutil.which("nbdinfo"):
            told = json.loads(run("nbdinfo", "--map", "--json", uri).stdout or "[]")
            found = [[it["offset"] // 512, it["length"] // 512, it["type"]] for it in told]
            say("sparse: nbdinfo --map", found == extents, str(found))
            told = json.loads(run("nbdinfo", "--json", uri).stdout or "{}")
            say("sparse: nbdinfo", told.get("protocol") is not None and "base:allocation" in told["exports"][0].get("contexts", []), str(told))
        try_copies("sparse", uri, wanted, len(data) + 65536)


def zeros_ignored():
    """A volume whose line ignores blocks of zeros: its map is told, and copies of it have holes there."""
    data = random.Random(11).randbytes(1 << 20)
    wanted = bytes(3 << 20) + data + bytes((30 << 20) + BLOCK) + data[:BLOCK] + bytes(BLOCK)
    extents = [[0, 3 << 20, 3], [3 << 20, 1 << 20, 0], [4 << 20, (30 << 20) + BLOCK, 3], [(34 << 20) + BLOCK, BLOCK, 0], [(34 << 20) + 2 * BLOCK, BLOCK, 3]]
    open("data", "wb").write(wanted)
    nbd_served.format_data(len(wanted))
    open("verity", "a").write(" 1 ignore_zero_blocks")
    # what is ignored isn't read
    with open("data", "r+b") as file:
        file.seek(5 << 20)
        file.write(data)
    with Served(words_for("verity", "v", "D=ro:" + os.path.abspath("data"), "H=ro:" + os.path.abspath("hash"))) as uri:
        if shutil.which("nbdinfo"):
            found = []
            for it in json.loads(run("nbdinfo", "--map", "--json", uri).stdout or "[]"):
                if found and found[-1][2] == it["type"]:
                    found[-1][1] += it["length"]
                else:
                    found.append([it["offset"], it["length"], it["type"]])
            say("zeros ignored: nbdinfo --map", found == extents, str(found))
        try_copies("zeros ignored", uri, wanted, len(data) + 131072)


def holes_read():
    """Bytes of that stack, read in chunks: each hole lies on a `zero` line, and no chunk of data lies on one alone."""
    nbd = libnbd()
    data = open("part", "rb").read()
    wanted = data[: 1 << 20] + bytes(100000 * 512) + data[1 << 20 :] + bytes(26976 * 512)
    zeros = [(1 << 20, 102048 * 512), (104096 * 512, len(wanted))]
    handle = nbd.NBD()
    handle.connect_command(words_for("holes", "s", "D=ro:" + os.path.abspath("part")))
    for offset, length in ((0, 1 << 20), (1 << 20, 8 << 20), ((1 << 20) - 9, 700), (5, 3 << 20), (102048 * 512 - 700, 900), (102000 * 512 + 1, 2 << 20), (len(wanted) - 1000, 1000), (0, 32 << 20)):
        told = []
        found = handle.pread_structured(length, offset, lambda part, at, status, error: told.append((at, at + len(part), status)) or 0)
        say(f"holes: bytes at {offset}", found == wanted[offset : offset + length])
        say(f"holes: in rising order at {offset}", [at for at, _, _ in told] + [offset + length] == [offset] + [end for _, end, _ in told], str(told))
        for at, end, status in told:
            alone = any(low <= at and end <= high for low, high in zeros)
            say(f"holes: {at} to {end}", status == (nbd.READ_HOLE if alone else nbd.READ_DATA), str(status))
    handle.shutdown()


def copied_in(data):
    """An image is copied in through a `crypt` line, changed across sectors' ends, and read back by another stack."""
    needs("socat", "nbdcopy")
    words = encrypted(len(data))
    open("plain", "wb").write(data)
    wanted = bytearray(data)

    def served(*client):
        done = run(*client)
        wait_until_free(words)
        return done

    with Served(words) as uri:
        done = served("nbdcopy", "plain", uri)
        say("copy in: nbdcopy", done.returncode == 0, done.stderr.decode())
        if shutil.which("qemu-io"):
            for offset, length, byte in ((511, 2, 0x11), (1000, 5000, 0x22), (len(data) - 700, 700, 0x33)):
                done = served("qemu-io", "-f", "raw", "-c", f"write -P {byte} {offset} {length}", "-c", "flush", "nbd:unix:" + uri.split("=")[1])
                say(f"qemu-io writes at {offset}", done.returncode == 0, done.stderr.decode())
                wanted[offset : offset + length] = bytes([byte]) * length
            for offset, length in ((513, 1), (70000, 5000), (1 << 20, 3 << 20)):
                done = served("qemu-io", "-f", "raw", "-c", f"write -z -f {offset} {length}", "-c", f"discard {offset} {length}", "nbd:unix:" + uri.split("=")[1])
                say(f"qemu-io writes zeros at {offset}", done.returncode == 0, done.stderr.decode())
                wanted[offset : offset + length] = bytes(length)
            done = served("qemu-io", "-f", "raw", "-c", "write -f -P 68 99 9", "nbd:unix:" + uri.split("=")[1])
            say("qemu-io writes with FUA", done.returncode == 0, done.stderr.decode())
            wanted[99:108] = bytes([68]) * 9
    say("copy in: the image is encrypted", open("secret", "rb").read() != bytes(wanted))
    with Served(words) as uri:
        done = run("nbdcopy", uri, "back")
        say("copy in: read back by another stack", done.returncode == 0 and open("back", "rb").read() == bytes(wanted), done.stderr.decode())


def changed_block(data):
    """A volume with one changed block: an error at its place and nowhere else, and at the end how many requests had it."""
    nbd = libnbd()
    bad = 37
    image = bytearray(data)
    image[bad * BLOCK + 99] ^= 1
    open("changed", "wb").write(image)
    handle = nbd.NBD()
    words = words_for("verity", "v", "D=ro:" + os.path.abspath("changed"), "H=ro:" + os.path.abspath("hash"))
    words.remove("--quiet")
    handle.connect_command(["sh", "-c", 'exec "$@" 2> errors', "sh", *words])
    say("changed block: size", handle.get_size() == len(data))
    say("changed block: read only", handle.is_read_only())
    say("changed block: several connections", handle.can_multi_conn())
    for k in range(len(data) // BLOCK):
        try:
            block = handle.pread(BLOCK, k * BLOCK)
            say(f"block {k}", k != bad and block == data[k * BLOCK : (k + 1) * BLOCK])
        except nbd.Error as error:
            say(f"block {k}", k == bad and error.errno == "EIO", str(error))
    for offset, length in ((bad * BLOCK - 1, 1), ((bad + 1) * BLOCK, 3), (5, 700), (1, 65537)):
        say(f"bytes at {offset}", handle.pread(length, offset) == data[offset : offset + length])
    over = ((bad * BLOCK - 1, 2), ((bad + 1) * BLOCK - 1, 1), (0, len(data)))
    for offset, length in over:
        try:
            handle.pread(length, offset)
            say(f"bytes at {offset} over the changed block", False)
        except nbd.Error as error:
            say(f"bytes at {offset} over the changed block", error.errno == "EIO")
    parts = ((bad * BLOCK - 9, 10), (bad * BLOCK + 7, 9), (0, len(data)), (3, 1 << 20), (5, 700), (1, len(data) // 2 - 1))
    for offset, length in parts:
        chunks_of(handle, data, offset, length, bad * BLOCK)
    handle.shutdown()
    met = [it for it in ((bad * BLOCK, BLOCK), *over, *parts) if it[0] < (bad + 1) * BLOCK and bad * BLOCK < sum(it)]
    log_told(len(data), len(data) // BLOCK + 4 + 3 + len(parts), [max(offset, bad * BLOCK) // 512 for offset, _ in met])


def log_told(size, requests, lost):
    """What the service of the volume has printed by its end, which may be a moment after the client's."""
    first = {sector // 8: sector for sector in reversed(lost)}
    listed = "".join(f"dmstack: export v: sector {sector}: Mismatch, data block {block}\n" for block, sector in sorted(first.items()))
    more = f"dmstack: {len(lost) - len(first)} more faulty requests\n" if len(first) < len(lost) else ""
    root = open("verity").read().partition(" sha256 ")[2].split()[0]
    log = f"dmstack: export v {size} bytes ro, root {root}\n{listed}{more}dmstack: served {requests} requests of "
    lines = 4 + len(first) + bool(more)
    end = f"faults {len(lost)} requests {requests}\n"
    for _ in range(100):
        errors = open("errors").read()
        if errors.endswith(end):
            break
        time.sleep(0.05)
    say("changed block: standard error", errors.startswith(log) and errors.endswith(end) and errors.count("\n") == lines, errors[:300])


def chunks_of(handle, data, offset, length, bad):
    """The chunks of a read as the client sees them: data in rising order up to the changed block, then its error."""
    import nbd

    told = []
    try:
        handle.pread_structured(length, offset, lambda part, at, status, error: told.append((at, bytes(part), status)) or 0)
        failed_there = False
    except nbd.Error as error:
        failed_there = error.errno == "EIO"
    over = bad < offset + length and offset < bad + BLOCK
    fault = [(max(offset, bad), nbd.READ_ERROR)] if over else []
    found = [(at, status) for at, _, status in told if status != nbd.READ_DATA]
    parts = [(at, part) for at, part, status in told if status == nbd.READ_DATA]
    places = [offset + sum(len(part) for _, part in parts[:k]) for k in range(len(parts))]
    wanted = data[offset : max(offset, bad) if over else offset + length]
    good = failed_there == over and found == fault and [at for at, _ in parts] == places
    say(f"chunks of {length} bytes at {offset}", good and b"".join(part for _, part in parts) == wanted, str(found))


def any_bytes(data):
    """Bytes at any place by libnbd, which refuses by itself what a service doesn't offer, in each of its strict modes."""
    nbd = libnbd()
    image = bytearray(data[: 64 * BLOCK])
    open("bytes", "wb").write(image)
    open("writable", "w").write(f"l,,,rw,0 {len(image) // 512} linear B 0")
    strict = [getattr(nbd, it) for it in dir(nbd) if it.startswith("STRICT_")]
    words = words_for("writable", "l", "B=rw:" + os.path.abspath("bytes"))
    for mode in [0, *strict]:
        handle = nbd.NBD()
        handle.set_strict_mode(mode)
        handle.add_meta_context("base:allocation")
        handle.connect_command(words)
        label = f"strict mode {mode:#x}"
        say(f"{label}: block sizes", [handle.get_block_size(it) for it in (nbd.SIZE_MINIMUM, nbd.SIZE_PREFERRED, nbd.SIZE_MAXIMUM)] == [1, 4096, 32 << 20])
        for offset, length in ((511, 2), (0, 1), (1023, 1), (513, 4096), (len(image) - 3, 3)):
            say(f"{label}: {length} bytes at {offset}", handle.pread(length, offset) == image[offset : offset + length])
            written = bytes((mode + it) % 251 for it in range(length))
            handle.pwrite(written, offset, nbd.CMD_FLAG_FUA)
            image[offset : offset + length] = written
            handle.zero(1, offset)
            image[offset] = 0
            handle.trim(length, offset)
            handle.cache(length, offset)
            told = []
            handle.block_status(length, offset, lambda _, at, entries, error: told.extend(entries) or 0)
            say(f"{label}: extents at {offset}", told == [length, 0], str(told))
            say(f"{label}: written at {offset}", handle.pread(length, offset) == image[offset : offset + length])
        handle.flush()
        handle.shutdown()
        wait_until_free(words)
        say(f"{label}: the image", open("bytes", "rb").read() == image)


def main():
    data = volume(8 << 20)
    verity = ["D=ro:" + os.path.abspath("data"), "H=ro:" + os.path.abspath("hash")]
    open("linear", "w").write(f"l,,,ro,0 {len(data) // 512} linear D 0")
    attempt(whole, "linear", words_for("linear", "l", verity[0]), data)
    attempt(whole, "verity", words_for("verity", "v", *verity), data)
    attempt(clients_at_once, data, words_for("verity", "v", *verity))
    attempt(clients_at_once, data, words_for("verity", "v", *verity), True)
    attempt(each_of_all, data, ["D=ro:" + os.path.abspath("data"), verity[1]])
    attempt(copied_in, data)
    attempt(sparse)
    attempt(holes_read)
    attempt(changed_block, data)
    attempt(zeros_ignored)
    attempt(any_bytes, data)
    attempt(syncs)
    attempt(file_system_copied)
    attempt(file_system_mounted)
    if not WORDS.no_speed:
        attempt(speed, limit=1200)
    if nbd_served.CHECKS.passed or nbd_served.CHECKS.failed:
        return nbd_served.CHECKS.end("clients")
    print("clients: nothing is installed that could try it")
    return 0


if __name__ == "__main__":
    parser = argparse.ArgumentParser()
    parser.add_argument("--no-speed", action="store_true")
    parser.add_argument("program", nargs="?", default=shutil.which("dmstack"))
    WORDS = parser.parse_args()
    nbd_served.program = os.path.abspath(WORDS.program)
    os.environ["PATH"] += ":/usr/sbin:/sbin"
    with tempfile.TemporaryDirectory() as room:
        os.chdir(room)
        sys.exit(main())
