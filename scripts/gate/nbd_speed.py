"""How fast nbdcopy reads a service over lines of each kind, beside nbdkit and beside `scan`."""
import os
import random
import shutil
import time

import nbd_served
from nbd_served import Served, format_data, needs, run, say, words_for


def nbdcopy_seconds(words, connections=4, activated=False):
    """How long nbdcopy takes to read a whole service, where that offers several connections over as many."""
    with Served(words, activated) as uri:
        start = time.monotonic()
        done = run("nbdcopy", f"--connections={connections}", uri, "null:")
        taken = time.monotonic() - start
    say("speed: nbdcopy", done.returncode == 0, done.stderr.decode())
    return taken


def scan_seconds(words):
    """How long `scan` takes to read the device of a service, which is what a service does beneath the protocol."""
    start = time.monotonic()
    done = run(nbd_served.program, "scan", *words[2:])
    taken = time.monotonic() - start
    say("speed: scan", done.returncode == 0, done.stdout.decode())
    return taken


def speed():
    """nbdcopy of 256 MiB over lines of each kind, beside nbdkit's of the same file, all through socat, and beside `scan`."""
    needs("socat", "nbdkit", "nbdcopy")
    size = 256 << 20
    sectors = size // 512
    open("data", "wb").write(random.Random(3).randbytes(1 << 20) * 256)
    format_data(size)
    key = "".join(f"{k:02x}" for k in range(64))
    data, hash = "D=ro:" + os.path.abspath("data"), "H=ro:" + os.path.abspath("hash")
    services = {"nbdkit": ["nbdkit", "-s", "-r", "file", os.path.abspath("data")], "verity": words_for("verity", "v", data, hash)}
    lines = {"linear": "linear D 0", "crypt": f"crypt aes-xts-plain64 {key} 0 D 0", "crypt by 4,096 bytes": f"crypt aes-xts-plain64 {key} 0 D 0 1 sector_size:4096"}
    for place, (name, line) in enumerate(lines.items()):
        open(f"fast{place}", "w").write(f"f,,,ro,0 {sectors} {line}")
        services[name] = words_for(f"fast{place}", "f", data)
    copied, scanned, alone, handed = ({name: [] for name in services} for _ in range(4))
    for _ in range(5):
        for name, words in services.items():
            copied[name].append(nbdcopy_seconds(words))
            alone[name].append(nbdcopy_seconds(words, 1))
            if name != "nbdkit":
                scanned[name].append(scan_seconds(words))
                if shutil.which("systemd-socket-activate"):
                    handed[name].append(nbdcopy_seconds(words, 1, True))
    least = min(copied["nbdkit"])
    for name in services:
        taken, single = min(copied[name]), min(alone[name])
        beneath = f"; scan's time is {min(scanned[name]) / taken:.2f} of it" if scanned[name] else ""
        if handed[name]:
            beneath += f", and {min(scanned[name]) / min(handed[name]):.2f} of that over one which systemd-socket-activate hands over"
        print(f"256 MiB, {name}: {taken:.2f} s over four connections, {256 / taken:.0f} MiB/s, {single / taken:.2f} times as fast as over one ({single:.2f} s); nbdkit's time is {least / taken:.2f} of it{beneath}")
