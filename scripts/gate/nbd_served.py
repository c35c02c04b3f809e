"""Services that NBD clients are tried with: which of these are installed, how many checks passed, and sockets that serve a service."""
import fcntl
import os
import random
import shlex
import shutil
import signal
import socket
import subprocess
import sys
import time

sys.dont_write_bytecode = True
sys.path.insert(0, os.path.join(os.path.dirname(os.path.realpath(__file__)), "../lib"))

from checks import Checks  # noqa: E402

CHECKS = Checks()
say = CHECKS.count
program = ""
# Of a part that is tried, and of a command, in seconds.
LIMIT, WAITED = 400, 300


class Left(Exception):
    """Why a part is left out: something isn't installed, or not allowed."""


def run(*words, **options):
    return subprocess.run([str(it) for it in words], capture_output=True, **{"timeout": WAITED, "stdin": subprocess.DEVNULL, **options})


def needs(*tools):
    for it in tools:
        if not shutil.which(it):
            raise Left(f"{it} isn't installed")


def libnbd():
    """libnbd's module, also where another Python than the system's runs."""
    sys.path.append("/usr/lib/python3/dist-packages")
    try:
        import nbd
    except ImportError:
        raise Left("python3-libnbd isn't installed") from None
    finally:
        sys.path.pop()
    lacks = [it for it in ("set_strict_mode", "get_block_size", "pread_structured", "can_multi_conn") if not hasattr(nbd.NBD, it)]
    if lacks:
        raise Left(f"python3-libnbd has no {lacks[0]}")
    if not sockets_are_allowed():
        raise Left("no Unix socket can be made")
    return nbd


class Late(Exception):
    """A part takes longer than it may."""


def attempt(part, *words, limit=LIMIT):
    """Tries a part in its time, or says why it is left out."""

    def late(*_):
        raise Late

    signal.signal(signal.SIGALRM, late)
    signal.alarm(limit)
    try:
        part(*words)
    except Left as left:
        print(f"{part.__name__}: left out, since {left}", flush=True)
    except (Late, subprocess.TimeoutExpired):
        say(part.__name__, False, "it takes too long")
    finally:
        signal.alarm(0)


def sockets_are_allowed():
    """Whether a Unix socket can be made here, and gone to."""
    try:
        with socket.socket(socket.AF_UNIX) as one, socket.socket(socket.AF_UNIX) as other:
            one.bind(os.path.abspath("socket"))
            one.listen()
            other.connect(os.path.abspath("socket"))
        return True
    except OSError:
        return False
    finally:
        if os.path.exists("socket"):
            os.remove("socket")


def wait_until_free(words):
    """Waits until no service of these words holds an image: a client is done before its service has synced and ended, and until
    then another one is refused."""
    for path in (it.partition(":")[2] for it in words if "=rw" in it):
        with open(path) as image:
            for _ in range(600):
                try:
                    fcntl.flock(image, fcntl.LOCK_EX | fcntl.LOCK_NB)
                    break
                except BlockingIOError:
                    time.sleep(0.05)


class Served:
    """A Unix socket at which each connection is served by a program of its own, which socat starts, or systemd's tool."""

    def __init__(self, words, activated=False):
        needs("systemd-socket-activate" if activated else "socat")
        if not sockets_are_allowed():
            raise Left("no Unix socket can be made")
        self.words = words
        self.path = os.path.join(os.getcwd(), "socket")
        # The command is in a file: socat splits its arguments at colons.
        script = os.path.join(os.getcwd(), "serve")
        with open(script, "w") as file:
            file.write("#!/bin/sh\nexec " + shlex.join(words) + "\n")
        os.chmod(script, 0o755)
        # As many clients may wait to be taken as systemd's tool lets wait; of socat alone it would be five.
        listener = ["socat", "-b", "1048576", f"UNIX-LISTEN:{self.path},fork,backlog=128", f"EXEC:{script}"]
        if activated:
            listener = ["systemd-socket-activate", "--accept", "--inetd", "-l", self.path, script]
        self.child = subprocess.Popen(listener, stderr=subprocess.DEVNULL)
        while not self.listens():
            if self.child.poll() is not None:
                raise Left(f"{listener[0]} doesn't listen")
            time.sleep(0.01)

    def listens(self):
        """Whether clients are taken: the socket is there a moment earlier. The system's list of sockets tells it by a flag."""
        if not os.path.exists(self.path):
            return False
        try:
            found = [it.split() for it in open("/proc/net/unix") if it.rstrip().endswith(" " + self.path)]
        except OSError:
            found = []
        if not found:
            time.sleep(0.5)
        return not found or any(int(it[3], 16) & 0x10000 for it in found)

    def __enter__(self):
        return "nbd+unix:///?socket=" + self.path

    def __exit__(self, *_):
        self.child.terminate()
        self.child.wait()
        if os.path.exists(self.path):
            os.remove(self.path)
        wait_until_free(self.words)


def format_data(size):
    """The hash image of the data image, and a stack with its root digest, made by the program."""
    open("hash", "wb").write(bytes(size // 64 + 65536))
    made = run(program, "format", "--salt", "00ff", "data", "hash").stdout.decode()
    root = next(word for word in made.split() if len(word) == 64)
    line = run(program, "table", "hash", root, "D", "H").stdout.decode().strip()
    open("verity", "w").write(f"v,,,ro,{line}")


def volume(size):
    """A data image and its hash image."""
    data = random.Random(7).randbytes(size)
    open("data", "wb").write(data)
    format_data(size)
    return data


def encrypted(size):
    """An image with that many zero bytes, a stack of one `crypt` line over it, and the words of its service."""
    key = "".join(f"{k:02x}" for k in range(64))
    open("secret", "wb").write(bytes(size))
    open("crypt", "w").write(f"c,,,rw,0 {size // 512} crypt aes-xts-plain64 {key} 0 B 0")
    return words_for("crypt", "c", "B=rw:" + os.path.abspath("secret"))


def words_for(stack, name, *bindings):
    return [program, "nbd", "--quiet", os.path.abspath(stack), name, *bindings]
