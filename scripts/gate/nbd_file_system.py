"""A file system that is made, filled, checked and read back through a `crypt` line: by nbdfuse, where that may mount, and by copies."""
import os
import random
import shutil
import subprocess
import time

from nbd_served import Left, Served, encrypted, needs, run, say, wait_until_free

SIZE = 16 << 20
TOOLS = ("mke2fs", "e2fsck", "debugfs")


def folder():
    """Files of several sizes, and what they hold."""
    dice = random.Random(11)
    shutil.rmtree("files", ignore_errors=True)
    os.makedirs("files/low")
    held = {f"low/{size}": dice.randbytes(size) for size in (0, 1, 4096, 100_000, 3 << 20)}
    for name, content in held.items():
        open(f"files/{name}", "wb").write(content)
    return held


def look(label, path, held):
    """The file system is whole, and has these files."""
    done = run("e2fsck", "-fn", path)
    say(f"{label}: e2fsck", done.returncode == 0, done.stdout.decode()[-300:])
    for name, content in held.items():
        say(f"{label}: {name}", run("debugfs", "-R", f"cat /{name}", path).stdout == content)


class Mounted:
    """The device of a service as a file, by nbdfuse."""

    def __init__(self, words):
        self.words = words
        os.makedirs("mounted", exist_ok=True)
        self.log = open("mounting", "wb")
        self.child = subprocess.Popen(["nbdfuse", "mounted", "--command", *words], stdin=subprocess.DEVNULL, stdout=self.log, stderr=self.log)
        until = time.monotonic() + 20
        while not os.path.exists("mounted/nbd"):
            if self.child.poll() is not None or time.monotonic() > until:
                self.end()
                raise Left("nbdfuse may not mount here")
            time.sleep(0.05)

    def __enter__(self):
        return os.path.abspath("mounted/nbd")

    def __exit__(self, *_):
        self.end()

    def end(self):
        """It is ended by its signal, as it unmounts then, and where that doesn't help by force."""
        self.child.terminate()
        try:
            self.child.wait(30)
        except subprocess.TimeoutExpired:
            self.child.kill()
            self.child.wait()
        self.log.close()
        if os.path.ismount("mounted"):
            run(*(["fusermount3", "-uz"] if shutil.which("fusermount3") else ["umount", "-l"]), "mounted")
        wait_until_free(self.words)


def file_system_mounted():
    """Made, filled and checked in place through the service; read back by a second one."""
    needs("nbdfuse", *TOOLS)
    held, words = folder(), encrypted(SIZE)
    more = random.Random(12).randbytes(1 << 20)
    open("more", "wb").write(more)
    with Mounted(words) as path:
        done = run("mke2fs", "-q", "-t", "ext4", "-d", "files", path)
        say("file system: mke2fs", done.returncode == 0, done.stderr.decode())
        done = run("debugfs", "-w", "-R", "write more added", path)
        say("file system: debugfs writes", done.returncode == 0, done.stderr.decode())
        done = run("debugfs", "-w", "-R", "rm low/4096", path)
        say("file system: debugfs removes", done.returncode == 0, done.stderr.decode())
        held["added"] = more
        del held["low/4096"]
        look("file system", path, held)
    with Mounted(words) as path:
        look("file system of a second service", path, held)
        open("shown", "wb").write(open(path, "rb").read())
    look("file system, copied out", "shown", held)
    hidden()


def hidden():
    """The image shows none of it."""
    image = open("secret", "rb").read()
    say("file system: the image is encrypted", image.strip(b"\0") != b"" and open("files/low/100000", "rb").read()[:64] not in image)


def file_system_copied():
    """Made and filled in a file, copied in by nbdcopy, and out by a second service."""
    needs("socat", "nbdcopy", *TOOLS)
    held, words = folder(), encrypted(SIZE)
    open("plain", "wb").write(bytes(SIZE))
    done = run("mke2fs", "-q", "-t", "ext4", "-d", "files", "plain")
    say("file system: mke2fs of a file", done.returncode == 0, done.stderr.decode())
    for label, ends in (("in", lambda uri: ("plain", uri)), ("out", lambda uri: (uri, "back"))):
        with Served(words) as uri:
            done = run("nbdcopy", "--flush", *ends(uri))
            say(f"file system: copied {label}", done.returncode == 0, done.stderr.decode())
    say("file system: the copy", open("back", "rb").read() == open("plain", "rb").read())
    look("file system, copied in and out", "back", held)
    hidden()
