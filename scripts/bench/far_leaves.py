#!/usr/bin/env python3
"""One READ of 4 MiB of a verity volume whose leaves take 20 ms for each read, beside `dd bs=1M` of the same bytes of its DATA.

far_leaves.py [--rounds ROUNDS] [--delay MS] [--read-ahead KIB].. [--loop] PROGRAM: the leaf is a file of an nbdfuse mount of nbdkit with
its filter `delay`. Once only DATA is such a leaf, once HASH too, by a second mount. Before each measurement of ROUNDS (7) the
leaves' pages are dropped and a service is started; the clock runs from the request to the last byte of its reply. A row has the
median times, the median of the rounds' ratios (more than 1: the service is slower) with the least and the greatest, and the most
memory that a service had. With --read-ahead the rows are also those of mounts with that read_ahead_kb, with --loop also those of loop
devices over the mounts, which stand for far block devices: these pass on reads as long as they are; both need root. The status
is 1 if a row of the mount as it is, or of DATA alone on a loop device, has a median above 1.3, or any service had more than
8 MiB. Needs nbdkit, nbdfuse, fusermount3, with --loop losetup and blockdev. Not a part of the gate.
"""
import argparse
import os
import statistics
import struct
import subprocess
import sys
import tempfile
import time

SIZE, MIB, GOAL, MEMORY = 4 << 20, 32, 1.3, 8192
OPTION = b"IHAVEOPT"


class Far:
    """A file in a mount of its own, or a loop device over it, each read of which takes a delay."""

    def __init__(self, name, delay, read_ahead, loop):
        os.makedirs(f"far-{name}", exist_ok=True)
        self.folder, self.path = f"far-{name}", f"far-{name}/nbd"
        server = ["nbdkit", "-s", "-r", "--filter=delay", "file", os.path.abspath(name), f"rdelay={delay}ms"]
        self.child = subprocess.Popen(["nbdfuse", "-r", self.folder, "--command", *server], stdin=subprocess.DEVNULL)
        while not os.path.exists(self.path):
            if self.child.poll() is not None:
                sys.exit("nbdfuse ended")
            time.sleep(0.02)
        if read_ahead:
            device = os.stat(self.path).st_dev
            with open(f"/sys/class/bdi/{os.major(device)}:{os.minor(device)}/read_ahead_kb", "w") as file:
                file.write(str(read_ahead))
        if loop:
            words = ["losetup", "--find", "--show", "--read-only", "--direct-io=on", self.path]
            self.path = subprocess.run(words, check=True, capture_output=True, text=True).stdout.strip()
        self.loop = loop

    def forget(self):
        """Drops the kernel's pages of the file."""
        if self.loop:
            subprocess.run(["blockdev", "--flushbufs", self.path], check=True)
        with open(self.path, "rb") as file:
            os.posix_fadvise(file.fileno(), 0, 0, os.POSIX_FADV_DONTNEED)

    def close(self):
        if self.loop:
            subprocess.run(["losetup", "--detach", self.path], check=True)
        subprocess.run(["fusermount3", "-u", self.folder], check=True)
        self.child.wait()


class Client:
    """A client of a service of its own."""

    def __init__(self, words, structured):
        self.child = subprocess.Popen(words, stdin=subprocess.PIPE, stdout=subprocess.PIPE)
        self.structured = structured
        self.get(18)
        self.put(struct.pack(">I", 3))
        if structured:
            self.put(OPTION + struct.pack(">II", 8, 0))
            self.get(20)
        self.put(OPTION + struct.pack(">II", 1, 0))
        self.get(10)

    def put(self, data):
        self.child.stdin.write(data)
        self.child.stdin.flush()

    def get(self, count):
        data = self.child.stdout.read(count)
        return data if len(data) == count else sys.exit("the service ended early")

    def read(self, offset):
        """The bytes of one READ, and how long it took."""
        start = time.monotonic()
        self.put(struct.pack(">IHHQQI", 0x25609513, 0, 0, 7, offset, SIZE))
        found = self.chunks(offset) if self.structured else self.reply()
        return found, time.monotonic() - start

    def reply(self):
        if struct.unpack(">IIQ", self.get(16)) != (0x67446698, 0, 7):
            sys.exit("the READ failed")
        return self.get(SIZE)

    def chunks(self, offset):
        found = bytearray(SIZE)
        while True:
            _, flags, kind, _, length = struct.unpack(">IHHQI", self.get(20))
            data = self.get(length)
            if kind == 1:
                at = int.from_bytes(data[:8], "big") - offset
                found[at : at + length - 8] = data[8:]
            elif kind != 0:
                sys.exit(f"a chunk of the type {kind}")
            if flags & 1:
                return bytes(found)

    def close(self):
        """Ends the service, and returns the most memory that it had, in KiB. (Of a child, `ru_maxrss` counts what this process had.)"""
        with open(f"/proc/{self.child.pid}/status") as file:
            memory = next(int(it.split()[1]) for it in file if it.startswith("VmHWM:"))
        self.put(struct.pack(">IHHQQI", 0x25609513, 0, 2, 0, 0, 0))
        self.child.wait()
        return memory


def dd_seconds(path, offset):
    words = ["dd", f"if={path}", "of=/dev/null", "bs=1M", f"skip={offset >> 20}", f"count={SIZE >> 20}", "status=none"]
    start = time.monotonic()
    subprocess.run(words, check=True)
    return time.monotonic() - start


def make(program):
    """DATA, HASH and the stack."""
    with open("data", "wb") as file:
        file.write(os.urandom(MIB << 20))
    subprocess.run([program, "format", "--quiet", "--grow", "--root-hash-file", "root", "data", "hash"], check=True, stdout=subprocess.DEVNULL)
    line = subprocess.run([program, "table", "--name", "v", "--root-hash-file", "root", "hash", "D", "H"], check=True, capture_output=True)
    with open("stack", "wb") as file:
        file.write(line.stdout)


def measure(program, leaves, structured, offset):
    """The times of `dd` and of the service for the bytes at an offset, each over dropped pages, and the service's memory."""
    far = [it for it in leaves if isinstance(it, Far)]
    for it in far:
        it.forget()
    plain = dd_seconds(far[0].path, offset)
    for it in far:
        it.forget()
    paths = [it.path if isinstance(it, Far) else it for it in leaves]
    client = Client([program, "nbd", "--quiet", "stack", "v", f"D=ro:{paths[0]}", f"H=ro:{paths[1]}"], structured)
    found, taken = client.read(offset)
    with open("data", "rb") as file:
        file.seek(offset)
        if file.read(SIZE) != found:
            sys.exit("the service sent other bytes")
    return plain, taken, client.close()


def row(program, rounds, name, leaves, structured):
    """Prints a row; its median ratio, and the most memory."""
    taken = []
    for it in range(rounds):
        taken.append(measure(program, leaves, structured, it * SIZE % (MIB << 20)))
    ratios = sorted(served / plain for plain, served, _ in taken)
    ratio, memory = statistics.median(ratios), max(it[2] for it in taken)
    plain, served = (statistics.median(it[k] for it in taken) for k in (0, 1))
    how = "chunks" if structured else "one reply"
    print(f"{name}, {how}: {served:.2f} s, dd {plain:.2f} s: ratio {ratio:.2f} ({ratios[0]:.2f} to {ratios[-1]:.2f}), {memory} KiB", flush=True)
    return ratio, memory


def main():
    words = argparse.ArgumentParser(usage=__doc__)
    words.add_argument("--rounds", type=int, default=7)
    words.add_argument("--delay", type=int, default=20)
    words.add_argument("--read-ahead", type=int, action="append", default=[])
    words.add_argument("--loop", action="store_true")
    words.add_argument("program")
    said = words.parse_args()
    program, bad = os.path.realpath(said.program), False
    with tempfile.TemporaryDirectory(dir="/dev/shm") as room:
        os.chdir(room)
        make(program)
        kinds = [(None, False), *((it, False) for it in said.read_ahead), *[(None, True)] * said.loop]
        for read_ahead, loop in kinds:
            data, tree = (Far(it, said.delay, read_ahead, loop) for it in ("data", "hash"))
            kind = "loop device" if loop else f"read_ahead_kb {read_ahead}" if read_ahead else "read-ahead as mounted"
            try:
                for far, leaves in (("DATA far", [data, "hash"]), ("DATA and HASH far", [data, tree])):
                    for structured in (False, True):
                        ratio, memory = row(program, said.rounds, f"{kind}, {far}", leaves, structured)
                        wanted = not read_ahead and not (loop and tree in leaves)
                        bad |= memory > MEMORY or (wanted and ratio > GOAL)
            finally:
                data.close()
                tree.close()
        os.chdir("/")
    sys.exit(bad)


main()
