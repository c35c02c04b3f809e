"""A virtual machine of QEMU's with the kernel of /boot, its modules of the device mapper, and kernel_guest.c as its one process."""
import glob
import os
import re
import shutil
import subprocess

GUEST = os.path.join(os.path.dirname(os.path.realpath(__file__)), "kernel_guest.c")
# What the machine needs of its kernel, and what a kernel may have under other names, or in itself.
NEEDED = ("virtio_pci", "virtio_blk", "dm-mod", "dm-zero", "dm-unstripe", "dm-crypt", "dm-verity")
WANTED = ("xts", "ecb", "aes_generic", "sha256_generic")
# For all cases together, on a machine that does other work too.
SECONDS = 900


class Missing(Exception):
    """What this system lacks for a virtual machine."""


class Broken(Exception):
    """The machine ended before its last command."""


def version_key(path):
    return [int(word) if word.isdigit() else word for word in re.split(r"(\d+)", path)]


def newest_kernel():
    found = sorted((it for it in glob.glob("/boot/vmlinuz-*") if os.access(it, os.R_OK)), key=version_key)
    if not found:
        raise Missing("there is no kernel in /boot that may be read")
    return found[-1]


def modules_in(path):
    """The modules of such a list by their names: for each its file, and in modules.dep the files that it needs."""
    found = {}
    for line in open(path):
        file, _, lower = line.strip().partition(":")
        found[os.path.basename(file).partition(".")[0].replace("_", "-")] = [file, *reversed(lower.split())]
    return found


def module_files(kernel):
    """The files of the modules that the machine loads, each after those that it needs."""
    folder = os.path.join("/lib/modules", os.path.basename(kernel).partition("-")[2])
    try:
        loaded, built_in = (modules_in(os.path.join(folder, it)) for it in ("modules.dep", "modules.builtin"))
    except FileNotFoundError:
        raise Missing(f"the kernel's modules aren't in {folder}") from None
    found = []
    for name in (it.replace("_", "-") for it in NEEDED + WANTED):
        file, *lower = loaded.get(name, [None])
        if not file and name not in built_in and name in [it.replace("_", "-") for it in NEEDED]:
            raise Missing(f"the kernel has no {name}")
        found += [it for it in [*lower, file] if it and it not in found]
    if any(not it.endswith(".ko") for it in found):
        raise Missing("the kernel's modules are compressed")
    return [os.path.join(folder, it) for it in found]


def archive(files):
    """An archive in cpio's form `newc` of files by their names: the mode, the content, and of a device its numbers."""
    parts = []
    for number, (name, (mode, content, *device)) in enumerate([*files.items(), ("TRAILER!!!", (0, b""))], 1):
        fields = [number, mode, 0, 0, 1, 0, len(content), 0, 0, *(device or (0, 0)), len(name) + 1, 0]
        head = b"070701" + b"".join(b"%08X" % it for it in fields) + name.encode() + b"\0"
        parts += [head.ljust(-(-len(head) // 4) * 4, b"\0"), content.ljust(-(-len(content) // 4) * 4, b"\0")]
    return b"".join(parts)


def needed(kernel=None):
    """The kernel and the files of its modules, if all that the machine needs is here."""
    if os.uname().machine != "x86_64":
        raise Missing("the virtual machine is one of x86-64")
    for it in ("qemu-system-x86_64", "cc"):
        if not shutil.which(it):
            raise Missing(f"{it} isn't installed")
    kernel = kernel or newest_kernel()
    return kernel, module_files(kernel)


def make_guest():
    """Compiles the machine's process, without libraries that it would need there."""
    done = subprocess.run(["cc", "-O1", "-static", "-o", "guest", GUEST], capture_output=True)
    if done.returncode:
        raise Missing("cc makes no static program with the kernel's headers")
    return open("guest", "rb").read()


def run_machine(kernel, modules, first, commands, most):
    """Runs the commands in a machine whose first disk is the file `first`; the answers, at most so many bytes."""
    files = {"dev": (0o040755, b""), "dev/console": (0o020600, b"", 5, 1), "init": (0o100755, make_guest()), "modules": (0o040755, b"")}
    files |= {f"modules/{at}": (0o100644, open(path, "rb").read()) for at, path in enumerate(modules)}
    open("initramfs", "wb").write(archive(files))
    open("commands", "wb").write(commands.ljust(-(-len(commands) // 512) * 512, b"\0"))
    with open("answers", "wb") as answers:
        answers.truncate(most)
    words = ["qemu-system-x86_64", "-accel", "tcg", "-cpu", "max", "-m", "256", "-nodefaults", "-display", "none", "-no-reboot", "-serial", "file:console"]
    # On a busy machine the kernel may find that its timer doesn't tick.
    words += ["-kernel", kernel, "-initrd", "initramfs", "-append", "console=ttyS0 panic=-1 loglevel=1 mitigations=off no_timer_check"]
    for path in (first, "commands", "answers"):
        words += ["-drive", f"file={path},format=raw,if=virtio,cache=unsafe"]
    try:
        done = subprocess.run(words, stdin=subprocess.DEVNULL, capture_output=True, timeout=SECONDS)
    except subprocess.TimeoutExpired:
        raise Broken(f"the machine took more than {SECONDS} seconds") from None
    answers = open("answers", "rb").read()
    if not answers.rstrip(b"\0").endswith(b"end\n"):
        raise Broken(f"the machine ended early: {open('console', 'rb').read()[-2000:].decode('latin-1')}{done.stderr.decode('latin-1')}")
    return answers
